//! Proved answers about seccomp filters, by the library of skern.h, in safe Rust.
//!
//! A filter is the bytes of its `struct sock_filter`s, as seccomp_export_bpf(3) writes them. A chain is a slice of filters, the
//! oldest first. All functions may be called by threads side by side.
//!
//! To link it: `rustc -L FOLDER -l static=skern`, with the folder that has `libskern.a`.
#![allow(dead_code)]

use std::error::Error;
use std::fmt;

/// AUDIT_ARCH_X86_64 of linux/audit.h.
pub const X86_64: u32 = 0xC000_003E;
/// The capabilities that docker leaves to a container.
pub const DOCKER: u64 = 0xA804_25FB;

/// A number of `enum skern_reason`.
#[repr(transparent)]
#[derive(Clone, Copy, Debug, PartialEq, Eq)]
pub struct Reason(pub u32);

impl Reason {
    pub const OK: Reason = Reason(0);
    /// The last of those that are of one filter.
    pub const PATH_LIMIT: Reason = Reason(12);
    pub const NO_MEMORY: Reason = Reason(13);
    pub const DIFFER: Reason = Reason(14);
    pub const UNFOLLOWED: Reason = Reason(15);
    pub const SPENT: Reason = Reason(16);
    pub const WIDE: Reason = Reason(24);

    /// Whether it says what is wrong with one filter.
    pub fn is_of_filter(self) -> bool {
        self != Reason::OK && self.0 <= Reason::PATH_LIMIT.0
    }
}

impl fmt::Display for Reason {
    fn fmt(&self, to: &mut fmt::Formatter<'_>) -> fmt::Result {
        let mut text = [0; raw::TEXT];
        let size = unsafe { raw::skern_reason(self.0, text.as_mut_ptr(), text.len()) };
        to.write_str(&String::from_utf8_lossy(&text[..size.saturating_sub(1).min(text.len())]))
    }
}

/// What is wrong, and where: `struct skern_fault`.
#[repr(C)]
#[derive(Clone, Copy, Debug, PartialEq, Eq)]
pub struct Fault {
    pub reason: Reason,
    /// 0 for the only or the old chain, 1 for the new one.
    pub chain: u32,
    /// Which filter of the chain, from 0 on.
    pub filter: usize,
    /// Which instruction of the filter, from 0 on; or which line of a policy, from 1 on.
    pub place: usize,
}

/// Why there is no answer.
#[derive(Clone, Debug, PartialEq, Eq)]
pub struct Refused {
    pub fault: Fault,
    /// What is wrong with a profile or a policy, or the lines of what is not known to [`lint`]; else the text of the reason.
    pub text: String,
}

impl fmt::Display for Refused {
    fn fmt(&self, to: &mut fmt::Formatter<'_>) -> fmt::Result {
        if self.fault.reason.is_of_filter() {
            write!(to, "filter {} at {}: ", self.fault.filter, self.fault.place)?;
        }
        to.write_str(&self.text)
    }
}

impl Error for Refused {}

/// What a filter sees of a call: `struct seccomp_data` of linux/seccomp.h.
#[repr(C)]
#[derive(Clone, Copy, Debug, PartialEq, Eq)]
pub struct Call {
    pub number: i32,
    pub architecture: u32,
    pub instruction_pointer: u64,
    pub arguments: [u64; 6],
}

impl Call {
    /// A call of x86-64.
    pub fn new(number: i32, arguments: [u64; 6]) -> Call {
        Call { number, architecture: X86_64, instruction_pointer: 0, arguments }
    }
}

/// A call to which two chains do not answer as is asked, and the verdict of each: `struct skern_difference`.
#[repr(C)]
#[derive(Clone, Copy, Debug, PartialEq, Eq)]
pub struct Difference {
    pub call: Call,
    pub old_verdict: u32,
    pub new_verdict: u32,
}

/// Where a profile is to hold: `struct skern_setting`.
#[repr(C)]
#[derive(Clone, Copy, Debug, PartialEq, Eq)]
pub struct Setting {
    /// Bit n for the capability with the number n of linux/capability.h.
    pub capabilities: u64,
    pub kernel_major: u32,
    pub kernel_minor: u32,
    /// Whether runc attaches the filter.
    pub runc: bool,
}

impl Default for Setting {
    /// Linux 6.12, and no capability.
    fn default() -> Setting {
        Setting { capabilities: 0, kernel_major: 6, kernel_minor: 12, runc: false }
    }
}

/// What bits that Linux does not read do to verdicts.
#[derive(Clone, Debug, PartialEq, Eq)]
pub struct Lint {
    /// No call gets a less strict verdict by them.
    pub is_strict: bool,
    pub lines: String,
}

/// Whether a filter is valid by seccomp(2), or its first fault.
pub fn check(filter: &[u8]) -> Result<(), Refused> {
    refuse(unsafe { raw::skern_check(filter.as_ptr(), filter.len()) }, &[])
}

/// What the filters answer to a call: a value of seccomp(2), with its action and its data.
pub fn verdict(chain: &[&[u8]], call: Call) -> Result<u32, Refused> {
    verdicts(chain, &[call]).map(|values| values[0])
}

/// What the filters answer to each of the calls, for which they are checked once.
pub fn verdicts(chain: &[&[u8]], calls: &[Call]) -> Result<Vec<u32>, Refused> {
    let (filters, mut values) = (filters_of(chain), vec![0; calls.len()]);
    let (to, room) = (values.as_mut_ptr(), values.len());
    refuse(unsafe { raw::skern_verdict(filters.as_ptr(), filters.len(), calls.as_ptr(), calls.len(), to, room) }, &[])?;
    Ok(values)
}

/// `None` where the new chain answers every call of x86-64 as the old one does, or as strictly; else a call to which it does not.
pub fn compare(old: &[&[u8]], new: &[&[u8]], stricter: bool) -> Result<Option<Difference>, Refused> {
    let (old, new) = (filters_of(old), filters_of(new));
    let mut difference = Difference { call: Call::new(0, [0; 6]), old_verdict: 0, new_verdict: 0 };
    let fault = unsafe { raw::skern_compare(old.as_ptr(), old.len(), new.as_ptr(), new.len(), stricter, &mut difference) };
    if fault.reason == Reason::DIFFER {
        return Ok(Some(difference));
    }
    refuse(fault, &[])?;
    Ok(None)
}

/// The filter that answers to every call of x86-64 what a container's profile says there.
pub fn profile(json: &[u8], setting: &Setting) -> Result<Vec<u8>, Refused> {
    made(|out, room, size| unsafe { raw::skern_profile(json.as_ptr(), json.len(), setting, out, room, size) })
}

/// The filter that answers to every call what a policy's text says.
pub fn policy(text: &[u8]) -> Result<Vec<u8>, Refused> {
    made(|out, room, size| unsafe { raw::skern_policy(text.as_ptr(), text.len(), out, room, size) })
}

/// Whether filters tell calls apart by bits of arguments that Linux does not read. It is refused where that is not known.
pub fn lint(chain: &[&[u8]]) -> Result<Lint, Refused> {
    let filters = filters_of(chain);
    let (fault, lines) = written(LINES, |out, room, size| unsafe { raw::skern_lint(filters.as_ptr(), filters.len(), out, room, size) });
    if fault.reason != Reason::WIDE {
        let is_unknown = [Reason::UNFOLLOWED, Reason::SPENT].contains(&fault.reason);
        refuse(fault, if is_unknown { &lines } else { &[] })?;
    }
    Ok(Lint { is_strict: fault.reason == Reason::OK, lines: String::from_utf8_lossy(&lines).into_owned() })
}

/// Room for what is said of most filters.
const LINES: usize = 65536;

fn filters_of<'a>(chain: &[&'a [u8]]) -> Vec<raw::Filter<'a>> {
    chain.iter().map(|it| raw::Filter { insns: it.as_ptr(), bytes: it.len(), of: std::marker::PhantomData }).collect()
}

/// What a function says, and what it writes, with as much room as it asks for.
fn written(mut room: usize, mut ask: impl FnMut(*mut u8, usize, &mut usize) -> Fault) -> (Fault, Vec<u8>) {
    loop {
        let (mut out, mut size) = (vec![0; room], 0);
        let fault = ask(out.as_mut_ptr(), room, &mut size);
        if size <= room {
            out.truncate(size);
            return (fault, out);
        }
        room = size;
    }
}

/// The filter that is written, or what is wrong with a text.
fn made(ask: impl FnMut(*mut u8, usize, &mut usize) -> Fault) -> Result<Vec<u8>, Refused> {
    let (fault, out) = written(raw::MOST_BYTES, ask);
    refuse(fault, &out)?;
    Ok(out)
}

fn refuse(fault: Fault, text: &[u8]) -> Result<(), Refused> {
    if fault.reason == Reason::OK {
        return Ok(());
    }
    let text = if text.is_empty() { fault.reason.to_string() } else { String::from_utf8_lossy(text).into_owned() };
    Err(Refused { fault, text })
}

/// The functions of skern.h.
mod raw {
    use super::{Call, Difference, Fault, Setting};
    use std::marker::PhantomData;

    pub const MOST_BYTES: usize = 32768;
    pub const TEXT: usize = 64;

    #[repr(C)]
    pub struct Filter<'a> {
        pub insns: *const u8,
        pub bytes: usize,
        pub of: PhantomData<&'a [u8]>,
    }

    unsafe extern "C" {
        pub fn skern_check(insns: *const u8, bytes: usize) -> Fault;
        pub fn skern_verdict(
            filters: *const Filter<'_>, count: usize, calls: *const Call, call_count: usize, verdicts: *mut u32, room: usize,
        ) -> Fault;
        pub fn skern_compare(
            old: *const Filter<'_>, old_count: usize, new: *const Filter<'_>, new_count: usize, stricter: bool, to: *mut Difference,
        ) -> Fault;
        pub fn skern_profile(json: *const u8, length: usize, setting: *const Setting, out: *mut u8, room: usize, size: *mut usize) -> Fault;
        pub fn skern_policy(text: *const u8, length: usize, out: *mut u8, room: usize, size: *mut usize) -> Fault;
        pub fn skern_lint(filters: *const Filter<'_>, count: usize, text: *mut u8, room: usize, size: *mut usize) -> Fault;
        pub fn skern_reason(reason: u32, text: *mut u8, room: usize) -> usize;
    }
}
