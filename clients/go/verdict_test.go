package macaroond

import (
	"fmt"
	"testing"
)

// What a verdict tells in words is one line of printable ASCII, as the command line has it.
func TestWords(t *testing.T) {
	signed := "\x00\x06\x20" + string(make([]byte, signatureSize))
	for caveat, shown := range map[string]string{
		"action = read": "action = read",
		"a\n2026-01-01T00:00:00Z granted to root\x1b[2J": `a\x0a2026-01-01T00:00:00Z granted to root\x1b[2J`,
		"\xff\xfe":   `\xff\xfe`,
		"ä\u202e":    `\xc3\xa4\xe2\x80\xae`,
		`\x0a`:       `\x5cx0a`,
		" ~\x7f\x1f": ` ~\x7f\x1f`,
	} {
		token := "\x02\x02\x05alice\x00\x02" + string([]byte{byte(len(caveat))}) + caveat + "\x00" + signed
		verdict, err := verdictOf(reply{codeUnsatisfied, "\x00\x00"}, token)
		due := "caveat 0 is not satisfied: " + shown
		if err != nil || verdict.Reason() != due || fmt.Sprint(verdict) != due || fmt.Sprintf("%+v", &verdict) != due {
			t.Errorf("%q: %v, %v", caveat, verdict, err)
		}
	}
}

func TestUnsignedLocation(t *testing.T) {
	token := "\x02\x01\x02me\x02\x05alice\x00\x00\x06\x20" + string(make([]byte, signatureSize))
	for _, one := range []struct {
		came                 reply
		identifier, location string
	}{
		{reply{codeGrantedTo, "\x00\x05carol\x00\x04here"}, "carol", "here"},
		{reply{codeGranted, ""}, "alice", "me"},
		{reply{codeBadSignature, ""}, "", ""},
	} {
		verdict, err := verdictOf(one.came, token)
		if err != nil || verdict.Identifier() != one.identifier || verdict.UnsignedLocation() != one.location {
			t.Errorf("%q at %q, %v", verdict.Identifier(), verdict.UnsignedLocation(), err)
		}
	}
	if _, err := verdictOf(reply{codeGrantedTo, "\x00\x05carol\x00"}, token); err == nil {
		t.Error("half a location is told")
	}
}
