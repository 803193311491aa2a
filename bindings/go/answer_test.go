package swapparty

import (
	"fmt"
	"strings"
	"testing"
)

func TestWarningsStandBesideCalls(t *testing.T) {
	text := "stale 2 9\nunkept 1\nunkept 1 4 0\nbad 1 0 NotExpired 61 accepted\nkeep 0 by 30 until 40 aa 0 bb\n" +
		"call 1 1 by 10 until 30 publish 10\ncall 2 1 by 70 refund\nlanding 3 by 10 until 30\n"
	answer, err := Parse(text)
	if err != nil || len(answer.Warnings) != 4 || len(answer.Lines) != 4 || answer.Rests {
		t.Fatalf("%v %v", answer, err)
	}
	if strings.Contains(fmt.Sprint(answer.Lines[0]), "aa") {
		t.Fatal("a hashkey is shown")
	}
}

func TestRests(t *testing.T) {
	if answer, err := Parse("bad 0 1\nwait 60\n"); err != nil || !answer.Rests || answer.Until != 60 {
		t.Fatalf("%v %v", answer, err)
	}
	if _, err := Parse("call 1 1 by 3 until 4 claim\n"); err == nil {
		t.Fatal("a claim has no last height")
	}
}

func TestSeedsAreHidden(t *testing.T) {
	if told := fmt.Sprintf("%v %+v %x %s", Seed{}, Seed{}, Seed{}, Seed{}); strings.Contains(told, "0") {
		t.Fatal(told)
	}
}
