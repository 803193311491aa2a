// Settles a swap whose parties all keep to the protocol, by the module swapparty, as settle.c does.
//
// usage: settle [KILLS] < LINES > TRANSCRIPT
//
// With KILLS every so many lines a wallet is killed behind what it wrote down, and starts again.
package main

import (
	"bufio"
	"encoding/hex"
	"encoding/json"
	"fmt"
	"os"
	"strconv"
	"strings"

	"swapparty"
)

type party struct {
	name, agreed, notes string
	seed                swapparty.Seed
}

type ledger struct {
	From, To string
	entries  []string
}

type swap struct {
	header              string
	Arcs                []ledger
	Start, Delta, Bound int
	parties             []*party
	kills, obeyed       int
}

func read(lines *bufio.Scanner) (*swap, error) {
	lines.Buffer(nil, 1<<24)
	lines.Scan()
	it := &swap{header: lines.Text()}
	if err := json.Unmarshal(lines.Bytes(), it); err != nil {
		return nil, err
	}
	for lines.Scan() {
		name, digits, _ := strings.Cut(lines.Text(), " ")
		seed, err := hex.DecodeString(digits)
		if err != nil {
			return nil, err
		}
		it.parties = append(it.parties, &party{name: name, seed: swapparty.Seed(*(*[32]byte)(seed))})
	}
	return it, lines.Err()
}

// The header, and what stands on every ledger, or on those that touch one party.
func (it *swap) told(name string) string {
	var told strings.Builder
	fmt.Fprintf(&told, "%s\n", it.header)
	for arc := range it.Arcs {
		ledger := &it.Arcs[arc]
		if name == "" || ledger.From == name || ledger.To == name {
			fmt.Fprintf(&told, "ledger %d %d\n%s", arc, len(ledger.entries), strings.Join(ledger.entries, ""))
		}
	}
	return told.String() + "end\n"
}

// Keeps the digest of each party's terms, to which here every owner agrees as they are.
func (it *swap) agree() error {
	for _, me := range it.parties {
		answer, err := swapparty.Terms(it.header+"\n", me.name)
		if err != nil {
			return err
		}
		for _, line := range strings.Split(answer, "\n") {
			if strings.HasPrefix(line, "agree ") {
				me.agreed = strings.TrimPrefix(line, "agree ")
			}
		}
	}
	return nil
}

// Whether the wallet is killed behind what it just wrote down.
func (it *swap) isKilled() bool {
	it.obeyed++
	return it.kills > 0 && it.obeyed%it.kills == 0
}

// Keeps what is to be kept, writes down a publish before it goes out, and presents a call: whether
// the wallet lives.
func (it *swap) obey(me *party, line swapparty.Line) bool {
	switch line.Kind {
	case swapparty.Landing:
		return true
	case swapparty.Keep:
		me.notes += line.Text + "\n"
		return !it.isKilled()
	}
	sent := fmt.Sprintf("sent %d\n", line.Arc)
	if line.Kind == swapparty.Publish {
		me.notes += sent
	}
	if it.isKilled() {
		// (this ledger takes a call at once or never: it never went out)
		me.notes = strings.ReplaceAll(me.notes, sent, "")
		return false
	}
	entries := &it.Arcs[line.Arc].entries
	*entries = append(*entries, fmt.Sprintf("c %d %s = accepted\n", line.Party, line.Call))
	return true
}

// Asks what is due, and obeys as long as the wallet lives: whether anything was.
func (it *swap) turn(me *party) (bool, error) {
	answer, err := swapparty.Next("agreed "+me.agreed+"\n"+me.notes+it.told(me.name), me.name, me.seed)
	if err != nil {
		return false, err
	}
	for _, warning := range answer.Warnings {
		fmt.Fprintln(os.Stderr, me.name, warning.Line)
	}
	for _, line := range answer.Lines {
		if !it.obey(me, line) {
			break
		}
	}
	return len(answer.Lines) > 0, nil
}

func (it *swap) settle() error {
	for height := 0; height <= it.Start+(2*it.Bound+2)*it.Delta; height++ {
		for acted := true; acted; {
			acted = false
			for _, me := range it.parties {
				more, err := it.turn(me)
				if err != nil {
					return err
				}
				acted = acted || more
			}
		}
		for arc := range it.Arcs {
			it.Arcs[arc].entries = append(it.Arcs[arc].entries, "t 1\n")
		}
	}
	return nil
}

func main() {
	it, err := read(bufio.NewScanner(os.Stdin))
	if err == nil && len(os.Args) > 1 {
		it.kills, err = strconv.Atoi(os.Args[1])
	}
	if err == nil {
		_, err = swapparty.Check(it.header)
	}
	if err == nil {
		err = it.agree()
	}
	if err == nil {
		err = it.settle()
	}
	if err == nil {
		_, err = os.Stdout.WriteString("swap transcript 1\n" + it.told(""))
	}
	if err != nil {
		fmt.Fprintln(os.Stderr, "settle:", err)
		os.Exit(1)
	}
}
