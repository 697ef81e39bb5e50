// filters asks the library of skern.h about filters in files, with the words and the answers of filters.c, by skern.go.
package main

import (
	"bufio"
	"encoding/binary"
	"errors"
	"fmt"
	"io/fs"
	"os"
	"strings"
)

const (
	mostFilters = 32
	callSize    = 64
	usage       = "usage: filters check FILE.. | verdict CALLS FILE.. | compare [--stricter] OLD NEW | profile FILE | policy FILE | lint FILE.."
)

// out is what is answered, which goes out at the end.
var out = bufio.NewWriter(os.Stdout)

func contents(path string) ([]byte, error) {
	all, err := os.ReadFile(path)
	var why *fs.PathError
	if errors.As(err, &why) {
		text := why.Err.Error()
		return nil, fmt.Errorf("%s: %s%s", path, strings.ToUpper(text[:1]), text[1:])
	}
	return all, err
}

// chainOf has the filters of files, the oldest first.
func chainOf(paths []string) ([][]byte, error) {
	if len(paths) > mostFilters {
		return nil, errors.New("there are more than 32 files")
	}
	chain := make([][]byte, len(paths))
	for at, path := range paths {
		filter, err := contents(path)
		if err != nil {
			return nil, err
		}
		chain[at] = filter
	}
	return chain, nil
}

// noAnswer is why there is none. Only what is wrong with a filter names its file.
func noAnswer(err error, paths []string) error {
	var why *Refused
	if errors.As(err, &why) && why.Reason.IsOfFilter() {
		return fmt.Errorf("%s: refused %d %s at %d", paths[why.Filter], why.Reason, why.Text, why.Place)
	}
	return err
}

func check(paths []string) (bool, error) {
	isWell := true
	for _, path := range paths {
		filter, err := contents(path)
		if err != nil {
			return false, err
		}
		var why *Refused
		switch err := Check(filter); {
		case err == nil:
			fmt.Fprintf(out, "%s: ok %d\n", path, len(filter)/8)
		case errors.As(err, &why) && why.Reason != NoMemory:
			fmt.Fprintf(out, "%s: refused %d %s at %d\n", path, why.Reason, why.Text, why.Place)
			isWell = false
		default:
			return false, err
		}
	}
	return isWell, nil
}

// callOf is a call from the bytes of its struct seccomp_data.
func callOf(seen []byte) Call {
	call := Call{Number: int32(binary.LittleEndian.Uint32(seen)), Architecture: binary.LittleEndian.Uint32(seen[4:])}
	call.InstructionPointer = binary.LittleEndian.Uint64(seen[8:])
	for at := range call.Arguments {
		call.Arguments[at] = binary.LittleEndian.Uint64(seen[16+8*at:])
	}
	return call
}

func verdict(callsPath string, paths []string) (bool, error) {
	seen, err := contents(callsPath)
	if err != nil {
		return false, err
	}
	if len(seen) == 0 || len(seen)%callSize != 0 {
		return false, errors.New("there are no calls")
	}
	chain, err := chainOf(paths)
	if err != nil {
		return false, err
	}
	calls := make([]Call, len(seen)/callSize)
	for at := range calls {
		calls[at] = callOf(seen[callSize*at:])
	}
	values, err := Verdicts(chain, calls)
	if err != nil {
		return false, noAnswer(err, paths)
	}
	for _, value := range values {
		fmt.Fprintf(out, "0x%08x\n", value)
	}
	return true, nil
}

func compare(stricter bool, paths []string) (bool, error) {
	chain, err := chainOf(paths)
	if err != nil {
		return false, err
	}
	it, err := Compare(chain[:1], chain[1:], stricter)
	if err != nil {
		var why *Refused
		errors.As(err, &why)
		return false, noAnswer(err, paths[why.Chain:])
	}
	if it == nil {
		fmt.Fprintf(out, "%s on every call\n", map[bool]string{true: "as strict", false: "the same"}[stricter])
		return true, nil
	}
	fmt.Fprintf(out, "syscall(%d", it.Call.Number)
	for _, argument := range it.Call.Arguments {
		fmt.Fprintf(out, ", 0x%x", argument)
	}
	fmt.Fprintf(out, "): 0x%08x -> 0x%08x\n", it.OldVerdict, it.NewVerdict)
	return false, nil
}

func write(path string, make func([]byte) ([]byte, error)) (bool, error) {
	text, err := contents(path)
	if err != nil {
		return false, err
	}
	filter, err := make(text)
	var why *Refused
	if errors.As(err, &why) && why.Reason != NoMemory {
		return false, fmt.Errorf("%s: refused %d %s", path, why.Reason, why.Text)
	}
	if err == nil {
		_, err = out.Write(filter)
	}
	return err == nil, err
}

func lint(paths []string) (bool, error) {
	chain, err := chainOf(paths)
	if err != nil {
		return false, err
	}
	isStrict, lines, err := Lint(chain)
	var why *Refused
	if errors.As(err, &why) && (why.Reason == Unfollowed || why.Reason == Spent) {
		return false, fmt.Errorf("%s\n%s", why.Reason, strings.TrimRight(why.Text, "\n"))
	}
	if err != nil {
		return false, noAnswer(err, paths)
	}
	_, err = out.WriteString(lines)
	return isStrict, err
}

func asked(words []string) (bool, error) {
	word := ""
	if len(words) > 0 {
		word, words = words[0], words[1:]
	}
	switch {
	case word == "check" && len(words) > 0:
		return check(words)
	case word == "verdict" && len(words) > 0:
		return verdict(words[0], words[1:])
	case word == "compare" && len(words) == 2:
		return compare(false, words)
	case word == "compare" && len(words) == 3 && words[0] == "--stricter":
		return compare(true, words[1:])
	case word == "profile" && len(words) == 1:
		return write(words[0], func(json []byte) ([]byte, error) { return Profile(json, Setting{KernelMajor: 6, KernelMinor: 12}) })
	case word == "policy" && len(words) == 1:
		return write(words[0], Policy)
	case word == "lint" && len(words) > 0:
		return lint(words)
	}
	return false, errors.New(usage)
}

func main() {
	isYes, err := asked(os.Args[1:])
	if ended := out.Flush(); err == nil {
		err = ended
	}
	if err != nil {
		fmt.Fprintf(os.Stderr, "filters: %s\n", strings.TrimRight(err.Error(), "\n"))
		os.Exit(2)
	}
	if !isYes {
		os.Exit(1)
	}
}
