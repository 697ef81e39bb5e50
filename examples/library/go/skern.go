// Proved answers about seccomp filters, by the library of skern.h.
//
// A filter is the bytes of its struct sock_filters, as seccomp_export_bpf(3) writes them. A chain is a slice of filters, the
// oldest first. All functions may be called by goroutines side by side.
//
// CGO_CFLAGS has to say where skern.h is, and CGO_LDFLAGS where libskern.a is.
package main

/*
#cgo LDFLAGS: -lskern
#include <stdlib.h>
#include "skern.h"
*/
import "C"

import (
	"fmt"
	"unsafe"
)

// Reason is a number of enum skern_reason.
type Reason uint32

const (
	OK         Reason = C.SKERN_OK
	PathLimit  Reason = C.SKERN_PATH_LIMIT // the last of those that are of one filter
	NoMemory   Reason = C.SKERN_NO_MEMORY
	Differ     Reason = C.SKERN_DIFFER
	Unfollowed Reason = C.SKERN_UNFOLLOWED
	Spent      Reason = C.SKERN_SPENT
	Wide       Reason = C.SKERN_WIDE
)

func (reason Reason) String() string {
	var text [C.SKERN_TEXT]C.char
	C.skern_reason(C.uint32_t(reason), &text[0], C.size_t(len(text)))
	return C.GoString(&text[0])
}

// IsOfFilter says whether it tells what is wrong with one filter.
func (reason Reason) IsOfFilter() bool { return reason != OK && reason <= PathLimit }

// Refused is why there is no answer. Chain is 0 for the only or the old chain, and 1 for the new one. Filter counts from 0, and so
// does Place, which is an instruction of the filter; of a policy it is a line, and counts from 1. Text is what is wrong with a
// profile or a policy, or the lines of what is not known to Lint; else it is the text of the reason.
type Refused struct {
	Reason               Reason
	Chain, Filter, Place int
	Text                 string
}

func (it *Refused) Error() string {
	if it.Reason.IsOfFilter() {
		return fmt.Sprintf("filter %d at %d: %s", it.Filter, it.Place, it.Text)
	}
	return it.Text
}

// Call is what a filter sees of a call: struct seccomp_data of linux/seccomp.h.
type Call struct {
	Number             int32
	Architecture       uint32
	InstructionPointer uint64
	Arguments          [6]uint64
}

// X86_64 is AUDIT_ARCH_X86_64 of linux/audit.h.
const X86_64 = 0xC000003E

// Difference is a call to which two chains do not answer as is asked, and the verdict of each.
type Difference struct {
	Call                   Call
	OldVerdict, NewVerdict uint32
}

// Setting is where a profile is to hold. Bit n of Capabilities is for the one with the number n of linux/capability.h.
type Setting struct {
	Capabilities             uint64
	KernelMajor, KernelMinor uint32
	Runc                     bool
}

// Check returns nil where the filter is valid by seccomp(2), and else its first fault.
func Check(filter []byte) error {
	return refused(C.skern_check(unsafe.Pointer(start(filter)), C.size_t(len(filter))), nil)
}

// Verdicts are what the filters answer to each of the calls, for which they are checked once.
func Verdicts(chain [][]byte, calls []Call) ([]uint32, error) {
	filters, release := filtersOf(chain)
	defer release()
	values := make([]uint32, len(calls))
	data := (*C.struct_seccomp_data)(unsafe.Pointer(start(calls)))
	to := (*C.uint32_t)(unsafe.Pointer(start(values)))
	fault := C.skern_verdict(start(filters), C.size_t(len(filters)), data, C.size_t(len(calls)), to, C.size_t(len(values)))
	return values, refused(fault, nil)
}

// Compare returns nil where the new chain answers every call of x86-64 as the old one does, or as strictly; else a call to which
// it does not.
func Compare(oldChain, newChain [][]byte, stricter bool) (*Difference, error) {
	older, releaseOld := filtersOf(oldChain)
	defer releaseOld()
	newer, releaseNew := filtersOf(newChain)
	defer releaseNew()
	var it C.struct_skern_difference
	fault := C.skern_compare(start(older), C.size_t(len(older)), start(newer), C.size_t(len(newer)), C.bool(stricter), &it)
	if Reason(fault.reason) == Differ {
		return &Difference{*(*Call)(unsafe.Pointer(&it.call)), uint32(it.old_verdict), uint32(it.new_verdict)}, nil
	}
	return nil, refused(fault, nil)
}

// Profile makes the filter that answers to every call of x86-64 what a container's profile says there.
func Profile(json []byte, setting Setting) ([]byte, error) {
	there := C.struct_skern_setting{
		capabilities: C.uint64_t(setting.Capabilities),
		kernel_major: C.uint32_t(setting.KernelMajor),
		kernel_minor: C.uint32_t(setting.KernelMinor),
		runc:         C.bool(setting.Runc),
	}
	return made(func(out []byte, size *C.size_t) C.struct_skern_fault {
		text := (*C.char)(unsafe.Pointer(start(json)))
		return C.skern_profile(text, C.size_t(len(json)), &there, unsafe.Pointer(start(out)), C.size_t(len(out)), size)
	})
}

// Policy makes the filter that answers to every call what a policy's text says.
func Policy(text []byte) ([]byte, error) {
	return made(func(out []byte, size *C.size_t) C.struct_skern_fault {
		policy := (*C.char)(unsafe.Pointer(start(text)))
		return C.skern_policy(policy, C.size_t(len(text)), unsafe.Pointer(start(out)), C.size_t(len(out)), size)
	})
}

// Lint says whether no call gets a less strict verdict by bits of arguments that Linux does not read, and has the lines that tell
// of such bits. It is refused where that is not known.
func Lint(chain [][]byte) (isStrict bool, lines string, err error) {
	filters, release := filtersOf(chain)
	defer release()
	fault, out := written(65536, func(out []byte, size *C.size_t) C.struct_skern_fault {
		text := (*C.char)(unsafe.Pointer(start(out)))
		return C.skern_lint(start(filters), C.size_t(len(filters)), text, C.size_t(len(out)), size)
	})
	switch Reason(fault.reason) {
	case OK, Wide:
		return Reason(fault.reason) == OK, string(out), nil
	case Unfollowed, Spent:
		return false, "", refused(fault, out)
	}
	return false, "", refused(fault, nil)
}

// start is where a slice begins; an empty one has a place, too, since C wants no NULL.
func start[T any](items []T) *T {
	if len(items) == 0 {
		return new(T)
	}
	return &items[0]
}

// filtersOf is a chain in the shapes and in the memory of C, which takes no pointer to pointers of Go, until it is released.
func filtersOf(chain [][]byte) ([]C.struct_skern_filter, func()) {
	filters := make([]C.struct_skern_filter, len(chain))
	for at, filter := range chain {
		filters[at] = C.struct_skern_filter{C.CBytes(filter), C.size_t(len(filter))}
	}
	return filters, func() {
		for _, it := range filters {
			C.free(unsafe.Pointer(it.insns))
		}
	}
}

// written is what a function says, and what it writes, with as much room as it asks for.
func written(room int, ask func([]byte, *C.size_t) C.struct_skern_fault) (C.struct_skern_fault, []byte) {
	for {
		var size C.size_t
		out := make([]byte, room)
		fault := ask(out, &size)
		if int(size) <= room {
			return fault, out[:size]
		}
		room = int(size)
	}
}

// made is the filter that is written, or what is wrong with a text.
func made(ask func([]byte, *C.size_t) C.struct_skern_fault) ([]byte, error) {
	fault, out := written(C.SKERN_MOST_BYTES, ask)
	if err := refused(fault, out); err != nil {
		return nil, err
	}
	return out, nil
}

func refused(fault C.struct_skern_fault, text []byte) error {
	reason := Reason(fault.reason)
	if reason == OK {
		return nil
	}
	it := &Refused{reason, int(fault.chain), int(fault.filter), int(fault.place), string(text)}
	if len(text) == 0 {
		it.Text = reason.String()
	}
	return it
}
