package macaroond

import (
	"encoding/json"
	"math"
	"os"
	"reflect"
	"strings"
	"testing"
	"time"
)

func TestDoubts(t *testing.T) {
	var rows []struct {
		Caveat   string
		At       uint64
		Repeated bool
		Doubt    string
	}
	content, err := os.ReadFile("../cases/doubts.json")
	if err == nil {
		err = json.Unmarshal(content, &rows)
	}
	if err != nil || len(rows) == 0 {
		t.Fatal(len(rows), err)
	}
	for _, row := range rows {
		moment := int64(math.MaxInt64)
		if row.At < math.MaxInt64 {
			moment = int64(row.At)
		}
		if told := doubt(row.Caveat, row.Repeated, moment); told != row.Doubt {
			t.Errorf("of %q at %d it is %q, and not %q", row.Caveat, row.At, told, row.Doubt)
		}
	}
	told := Doubts(time.Unix(0, 0), "a", "a\xff", "a", "ip=\x1b")
	due := []string{"a caveat stands there twice: a", `a caveat has not one space on each side of its equals sign: ip=\x1b`}
	if !reflect.DeepEqual(told, due) {
		t.Errorf("%q", told)
	}
}

// A caveat that can hardly hold is warned of, and taken.
func TestWithWarnings(t *testing.T) {
	var told []string
	client, err := Dial(background, server(t, echoes), WithWarnings(func(line string) { told = append(told, line) }))
	if err != nil {
		t.Fatal(err)
	}
	defer client.Close()
	token := "AgIFYWxpY2UAAAYg" + strings.Repeat("A", 43)
	_, minted := client.Mint(background, Mint{Key: "bank", Identifier: "alice", Caveats: []string{"a", "path under /a/"}})
	_, narrowed := client.Attenuate(background, token, "method=GET", "a")
	_, written := client.AttenuateTo(background, V1Text, token, "a", "a")
	if minted != nil || narrowed != nil || written != nil {
		t.Error(minted, narrowed, written)
	}
	due := []string{
		"a caveat ends in a slash, and no path is under it: path under /a/",
		"a caveat has not one space on each side of its equals sign: method=GET",
		"a caveat stands there twice: a",
	}
	if !reflect.DeepEqual(told, due) {
		t.Errorf("%q", told)
	}
}
