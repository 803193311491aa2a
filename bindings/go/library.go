// Package swapparty is the wallet of one party of an atomic swap across chains: the five calls of
// libswap_party, and their answers as values.
//
// A warning (stale, unkept, bad) stands beside the calls of an Answer, never in their place.
// docs/using/wallet.md says what a wallet does with each line.
package swapparty

/*
#cgo LDFLAGS: -lswap_party
#include <stdint.h>
#include <stddef.h>

typedef struct { uint32_t status; size_t length; } swap_party_said;

swap_party_said swap_party_keys(const uint8_t *, size_t, const uint8_t *, size_t, const uint8_t *, uint8_t *, size_t);
swap_party_said swap_party_deal(const uint8_t *, size_t, uint8_t *, size_t);
swap_party_said swap_party_terms(const uint8_t *, size_t, const uint8_t *, size_t, uint8_t *, size_t);
swap_party_said swap_party_next(const uint8_t *, size_t, const uint8_t *, size_t, const uint8_t *, uint8_t *, size_t);
swap_party_said swap_party_check(const uint8_t *, size_t, uint8_t *, size_t);
const char *swap_party_version(void);
*/
import "C"

import (
	"errors"
	"fmt"
	"strings"
	"unsafe"
)

const (
	done     = 0
	short    = 1
	warned   = 2
	refused  = 3
	noMemory = 6
	tooLong  = 7
)

// ErrNoMemory says that malloc answered null: ask again.
var ErrNoMemory = errors.New("no memory")

// ErrTooLong says that the text has more bytes than its limit.
var ErrTooLong = errors.New("the text has more bytes than its limit")

// RefusedError is the first reason against what was handed over, as docs/FORMATS.md tells it.
type RefusedError struct{ Reason string }

func (it *RefusedError) Error() string { return "refused: " + it.Reason }

// Seed is of one party in one swap. It isn't shown where it is printed.
type Seed [32]byte

// String hides the seed.
func (Seed) String() string { return "Seed(..)" }

// GoString hides the seed.
func (Seed) GoString() string { return "Seed(..)" }

// Format hides the seed from every verb.
func (Seed) Format(to fmt.State, _ rune) { _, _ = to.Write([]byte("Seed(..)")) }

// A text's first byte for C, or a null pointer where there is none.
func at(text []byte) *C.uint8_t {
	if len(text) == 0 {
		return nil
	}
	return (*C.uint8_t)(unsafe.Pointer(&text[0]))
}

// What a call puts into the buffer. It is made again where the buffer was too short.
func said(call func(out []byte) C.swap_party_said) ([]byte, error) {
	out := make([]byte, 1<<14)
	it := call(out)
	if it.status == short {
		out = make([]byte, it.length)
		it = call(out)
	}
	switch it.status {
	case done, warned:
		return out[:it.length], nil
	case refused:
		reason := strings.TrimPrefix(string(out[:it.length]), "swap: refused: ")
		return nil, &RefusedError{strings.TrimRight(reason, "\n")}
	case noMemory:
		return nil, ErrNoMemory
	case tooLong:
		return nil, ErrTooLong
	}
	return nil, fmt.Errorf("status %d", it.status)
}

// Keys answers the row of the party of that name for the deal of an offer's line.
func Keys(offer, name string, seed Seed) (string, error) {
	told, called := []byte(offer), []byte(name)
	row, err := said(func(out []byte) C.swap_party_said {
		return C.swap_party_keys(at(told), C.size_t(len(told)), at(called), C.size_t(len(called)), at(seed[:]), at(out), C.size_t(len(out)))
	})
	return string(row), err
}

// Deal answers the header line of the deal of an offer's line and everybody's rows behind it.
func Deal(offerAndRows string) (string, error) {
	told := []byte(offerAndRows)
	header, err := said(func(out []byte) C.swap_party_said {
		return C.swap_party_deal(at(told), C.size_t(len(told)), at(out), C.size_t(len(out)))
	})
	return string(header), err
}

// Terms answers what the party of that name agrees to by a header line and lines of context.
func Terms(agreed, name string) (string, error) {
	told, called := []byte(agreed), []byte(name)
	terms, err := said(func(out []byte) C.swap_party_said {
		return C.swap_party_terms(at(told), C.size_t(len(told)), at(called), C.size_t(len(called)), at(out), C.size_t(len(out)))
	})
	return string(terms), err
}

// Next answers what is due for the party of that name, and what is wrong beside it.
func Next(text, name string, seed Seed) (*Answer, error) {
	told, called := []byte(text), []byte(name)
	answer, err := said(func(out []byte) C.swap_party_said {
		return C.swap_party_next(at(told), C.size_t(len(told)), at(called), C.size_t(len(called)), at(seed[:]), at(out), C.size_t(len(out)))
	})
	if err != nil {
		return nil, err
	}
	return Parse(string(answer))
}

// Check answers the id of the deal that a header line states, where it is accepted.
func Check(header string) ([]byte, error) {
	told := []byte(header)
	return said(func(out []byte) C.swap_party_said {
		return C.swap_party_check(at(told), C.size_t(len(told)), at(out), C.size_t(len(out)))
	})
}

// Version is that of the library that was linked, a space, and "proved" or "unproved".
func Version() string { return C.GoString(C.swap_party_version()) }
