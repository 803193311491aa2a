package swapparty

import (
	"fmt"
	"strconv"
	"strings"
)

// WarningKind says what is wrong with a ledger or the notes.
type WarningKind int

const (
	// Stale: the ledger of Arc is told below Height, at which it was seen.
	Stale WarningKind = iota
	// Stopped: the notes have no one hashkey for Lock.
	Stopped
	// Unkept: an unlock of the party, Entry of Arc, by a hashkey for Lock that isn't among the notes.
	Unkept
	// Bad: Entry of Arc can't be read, or isn't what its contract replies.
	Bad
)

// Warning stands beside what is due.
type Warning struct {
	Kind          WarningKind
	Arc, Lock     uint8
	Entry, Height uint64
	Line          string
}

// LineKind says what is to be done, or waited for.
type LineKind int

const (
	// Keep: Text goes into the notes, and is synced, before anybody sees the hashkey.
	Keep LineKind = iota
	// Publish may be presented; it is noted as sent before it goes out, once.
	Publish
	// Unlock may be presented.
	Unlock
	// Claim may be presented.
	Claim
	// Refund may be presented.
	Refund
	// Landing: a publish was sent on Arc, and may land.
	Landing
)

// Line is on time up to By, and of use up to Until, which an unlock, a publish and a landing have.
// Call has the words of the call, as a ledger's line has them.
type Line struct {
	Kind       LineKind
	Arc, Party uint8
	By, Until  uint64
	Call, Text string
}

// String shows no hashkey.
func (it Line) String() string {
	return fmt.Sprintf("%s on %d by %d", [...]string{"keep", "publish", "unlock", "claim", "refund", "landing"}[it.Kind], it.Arc, it.By)
}

// Answer is what is due, what is wrong beside it, and where nothing is due how long that is so.
type Answer struct {
	Warnings []Warning
	Lines    []Line
	// Rests: nothing is due, until a call lands or, with HasUntil, a ledger stands above Until.
	Rests, Done, HasUntil bool
	Until                 uint64
}

var calls = map[string]LineKind{"publish": Publish, "unlock": Unlock, "claim": Claim, "refund": Refund}

// Parse reads what `party next` or the library wrote.
func Parse(text string) (*Answer, error) {
	answer := &Answer{}
	for _, line := range strings.Split(strings.TrimSuffix(text, "\n"), "\n") {
		reading := &reader{words: strings.Split(line, " ")}
		answer.take(line, reading)
		if reading.isWrong {
			return nil, fmt.Errorf("no line of an answer: %.20q", line)
		}
	}
	return answer, nil
}

// A line's words, as far as they are read.
type reader struct {
	words   []string
	isWrong bool
}

func (it *reader) word() string {
	if len(it.words) == 0 {
		it.isWrong = true
		return ""
	}
	word := it.words[0]
	it.words = it.words[1:]
	return word
}

func (it *reader) number(behind string, bits int) uint64 {
	if behind != "" && it.word() != behind {
		it.isWrong = true
	}
	number, err := strconv.ParseUint(it.word(), 10, bits)
	it.isWrong = it.isWrong || err != nil
	return number
}

func (it *reader) small() uint8 { return uint8(it.number("", 8)) }

func (it *reader) end() { it.isWrong = it.isWrong || len(it.words) > 0 }

func (it *Answer) take(line string, words *reader) {
	switch kind := words.word(); kind {
	case "stale":
		it.Warnings = append(it.Warnings, Warning{Kind: Stale, Arc: words.small(), Height: words.number("", 64), Line: line})
	case "unkept":
		if len(words.words) == 1 {
			it.Warnings = append(it.Warnings, Warning{Kind: Stopped, Lock: words.small(), Line: line})
		} else {
			it.Warnings = append(it.Warnings, Warning{Kind: Unkept, Arc: words.small(), Entry: words.number("", 64), Lock: words.small(), Line: line})
		}
	case "bad":
		it.Warnings = append(it.Warnings, Warning{Kind: Bad, Arc: words.small(), Entry: words.number("", 64), Line: line})
		return
	case "keep":
		words.small()
		it.Lines = append(it.Lines, Line{Kind: Keep, By: words.number("by", 64), Until: words.number("until", 64), Text: line})
		return
	case "call":
		it.call(line, words)
		return
	case "landing":
		it.Lines = append(it.Lines, Line{Kind: Landing, Arc: words.small(), By: words.number("by", 64), Until: words.number("until", 64), Text: line})
	case "wait":
		it.Rests, it.HasUntil = true, len(words.words) > 0
		if it.HasUntil {
			it.Until = words.number("", 64)
		}
	case "done":
		it.Rests, it.Done = true, true
	default:
		words.isWrong = true
	}
	words.end()
}

func (it *Answer) call(line string, words *reader) {
	call := Line{Arc: words.small(), Party: words.small(), By: words.number("by", 64), Text: line}
	isLimited := len(words.words) > 0 && words.words[0] == "until"
	if isLimited {
		call.Until = words.number("until", 64)
	}
	call.Call = strings.Join(words.words, " ")
	kind, isKnown := calls[words.word()]
	call.Kind = kind
	words.isWrong = words.isWrong || !isKnown || isLimited != (kind == Publish || kind == Unlock)
	it.Lines = append(it.Lines, call)
}
