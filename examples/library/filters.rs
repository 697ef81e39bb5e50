//! filters: asks the library of skern.h about filters in files, with the words and the answers of filters.c, by skern.rs.
mod skern;

use skern::{Call, Reason, Refused, Setting};
use std::io::Write;
use std::process::ExitCode;

/// Why there is no answer: a line, and lines below it.
type Answer = Result<bool, String>;

const MOST_FILTERS: usize = 32;
const CALL: usize = 64;
const USAGE: &str =
    "usage: filters check FILE.. | verdict CALLS FILE.. | compare [--stricter] OLD NEW | profile FILE | policy FILE | lint FILE..";

fn contents(path: &str) -> Result<Vec<u8>, String> {
    std::fs::read(path).map_err(|why| {
        let text = why.to_string();
        format!("{path}: {}", text.split(" (os error").next().unwrap_or(&text))
    })
}

/// The filters of files, the oldest first.
fn chain_of(paths: &[&str]) -> Result<Vec<Vec<u8>>, String> {
    if paths.len() > MOST_FILTERS {
        return Err("there are more than 32 files".to_string());
    }
    paths.iter().map(|it| contents(it)).collect()
}

fn borrowed(chain: &[Vec<u8>]) -> Vec<&[u8]> {
    chain.iter().map(Vec::as_slice).collect()
}

/// A call from the bytes of its struct seccomp_data.
fn call_of(seen: &[u8]) -> Call {
    let number = |at: usize, size: usize| seen[at..at + size].iter().rev().fold(0, |sum, byte| sum << 8 | u64::from(*byte));
    let arguments = std::array::from_fn(|at| number(16 + 8 * at, 8));
    Call { number: number(0, 4) as i32, architecture: number(4, 4) as u32, instruction_pointer: number(8, 8), arguments }
}

/// Only what is wrong with a filter names its file.
fn no_answer(why: &Refused, paths: &[&str]) -> String {
    let fault = why.fault;
    if fault.reason.is_of_filter() {
        return format!("{}: refused {} {} at {}", paths[fault.filter], fault.reason.0, why.text, fault.place);
    }
    why.text.clone()
}

fn check(out: &mut impl Write, paths: &[&str]) -> Answer {
    let mut is_well = true;
    for path in paths {
        let filter = contents(path)?;
        let line = match skern::check(&filter) {
            Ok(()) => format!("{path}: ok {}", filter.len() / 8),
            Err(why) if why.fault.reason == Reason::NO_MEMORY => return Err(why.text),
            Err(why) => {
                is_well = false;
                format!("{path}: refused {} {} at {}", why.fault.reason.0, why.text, why.fault.place)
            }
        };
        writeln!(out, "{line}").map_err(|why| why.to_string())?;
    }
    Ok(is_well)
}

fn verdict(out: &mut impl Write, calls: &str, paths: &[&str]) -> Answer {
    let seen = contents(calls)?;
    if seen.is_empty() || seen.len() % CALL != 0 {
        return Err("there are no calls".to_string());
    }
    let chain = chain_of(paths)?;
    let calls: Vec<Call> = seen.chunks_exact(CALL).map(call_of).collect();
    for value in skern::verdicts(&borrowed(&chain), &calls).map_err(|why| no_answer(&why, paths))? {
        writeln!(out, "0x{value:08x}").map_err(|why| why.to_string())?;
    }
    Ok(true)
}

fn compare(out: &mut impl Write, stricter: bool, old: &str, new: &str) -> Answer {
    let (old_filter, new_filter) = (contents(old)?, contents(new)?);
    let found = skern::compare(&[&old_filter], &[&new_filter], stricter)
        .map_err(|why| no_answer(&why, std::slice::from_ref([&old, &new][why.fault.chain as usize])))?;
    let line = match &found {
        None if stricter => "as strict on every call".to_string(),
        None => "the same on every call".to_string(),
        Some(it) => {
            let arguments: Vec<String> = it.call.arguments.iter().map(|it| format!("0x{it:x}")).collect();
            format!("syscall({}, {}): 0x{:08x} -> 0x{:08x}", it.call.number, arguments.join(", "), it.old_verdict, it.new_verdict)
        }
    };
    writeln!(out, "{line}").map_err(|why| why.to_string())?;
    Ok(found.is_none())
}

fn made(out: &mut impl Write, path: &str, make: impl Fn(&[u8]) -> Result<Vec<u8>, Refused>) -> Answer {
    let filter = make(&contents(path)?).map_err(|why| match why.fault.reason {
        Reason::NO_MEMORY => why.text,
        reason => format!("{path}: refused {} {}", reason.0, why.text),
    })?;
    out.write_all(&filter).map_err(|why| why.to_string())?;
    Ok(true)
}

fn lint(out: &mut impl Write, paths: &[&str]) -> Answer {
    let chain = chain_of(paths)?;
    let it = skern::lint(&borrowed(&chain)).map_err(|why| match why.fault.reason {
        reason @ (Reason::UNFOLLOWED | Reason::SPENT) => format!("{reason}\n{}", why.text.trim_end_matches('\n')),
        _ => no_answer(&why, paths),
    })?;
    out.write_all(it.lines.as_bytes()).map_err(|why| why.to_string())?;
    Ok(it.is_strict)
}

fn asked(out: &mut impl Write, words: &[&str]) -> Answer {
    match words {
        ["check", paths @ ..] if !paths.is_empty() => check(out, paths),
        ["verdict", calls, paths @ ..] => verdict(out, calls, paths),
        ["compare", old, new] => compare(out, false, old, new),
        ["compare", "--stricter", old, new] => compare(out, true, old, new),
        ["profile", path] => made(out, path, |json| skern::profile(json, &Setting::default())),
        ["policy", path] => made(out, path, skern::policy),
        ["lint", paths @ ..] if !paths.is_empty() => lint(out, paths),
        _ => Err(USAGE.to_string()),
    }
}

fn main() -> ExitCode {
    let words: Vec<String> = std::env::args().skip(1).collect();
    let words: Vec<&str> = words.iter().map(String::as_str).collect();
    let mut out = std::io::BufWriter::new(std::io::stdout());
    let answer = asked(&mut out, &words);
    match (answer, out.flush()) {
        (Ok(is), Ok(())) => ExitCode::from(u8::from(!is)),
        (Ok(_), Err(why)) => trouble(&why.to_string()),
        (Err(why), _) => trouble(why.trim_end_matches('\n')),
    }
}

fn trouble(why: &str) -> ExitCode {
    eprintln!("filters: {why}");
    ExitCode::from(2)
}
