package macaroond

import (
	"encoding/binary"
	"fmt"
	"strings"
)

// Verdict is what a verify comes to.
type Verdict struct {
	// Code is 0 where the token is granted, else the number of the refusal.
	Code int
	// Caveat is the place of the first caveat that isn't satisfied, from 0, where that is the refusal; else -1.
	Caveat int
	// So that a verdict that nobody gave grants nothing.
	isGranted bool
	token     string
	// What the daemon told, where it told whose the token is.
	owner  owner
	isTold bool
}

// owner is whose a granted token is, and the location that it has, which nobody signed.
type owner struct {
	identifier, location string
}

// verdictOf gives the verdict that a verify's reply tells, or the error that it tells.
func verdictOf(came reply, token string) (Verdict, error) {
	switch came.code {
	case codeGranted:
		return Verdict{Code: codeGranted, Caveat: -1, isGranted: true, token: token}, nil
	case codeGrantedTo:
		if told, isThere := ownerIn(came.rest); isThere {
			return Verdict{codeGranted, -1, true, token, told, true}, nil
		}
	case codeTransport, codeMalformed, codeThirdParty, codeLimit, codeBadSignature, codeLocation, codeRevoked:
		return Verdict{Code: int(came.code), Caveat: -1, token: token}, nil
	case codeUnsatisfied:
		if len(came.rest) == 2 {
			caveat := int(binary.BigEndian.Uint16([]byte(came.rest)))
			return Verdict{Code: codeUnsatisfied, Caveat: caveat, token: token}, nil
		}
	}
	return Verdict{}, refused(int(came.code))
}

// ownerIn gives what the fields of a reply tell that says whose a token is.
func ownerIn(fields string) (owner, bool) {
	identifier, rest, isThere := cutLong(fields)
	if !isThere {
		return owner{}, false
	}
	location, _, isThere := cutLong(rest)
	return owner{identifier, location}, isThere
}

// cutLong gives a field that begins with two bytes of length, and what stands behind it.
func cutLong(fields string) (field, rest string, isThere bool) {
	if len(fields) < 2 {
		return "", "", false
	}
	end := 2 + int(binary.BigEndian.Uint16([]byte(fields)))
	if len(fields) < end {
		return "", "", false
	}
	return fields[2:end], fields[end:], true
}

// Granted tells whether the token is granted.
func (v Verdict) Granted() bool { return v.isGranted }

// Revoked tells whether the token was taken back, or the one that it was narrowed from: it
// will never be granted again.
func (v Verdict) Revoked() bool { return v.Code == codeRevoked }

// Identifier gives the identifier of a token that is granted. Of any other there is
// none, since nobody vouches for it.
func (v Verdict) Identifier() string { return v.whose().identifier }

// UnsignedLocation gives the location of a token that is granted: a hint of where it is
// from, which whoever holds the token can change, so that nothing may rest on it. Of any
// other token there is none.
func (v Verdict) UnsignedLocation() string { return v.whose().location }

// whose gives what is known of whose a granted token is.
func (v Verdict) whose() owner {
	if !v.Granted() || v.isTold {
		return v.owner
	}
	token, err := Inspect(v.token)
	if err != nil {
		return owner{}
	}
	return owner{token.Identifier, token.Location}
}

// String tells the verdict as Reason does.
func (v Verdict) String() string { return v.Reason() }

// Reason tells the verdict in words, in one line of printable ASCII: in the text of a
// caveat each other byte and the backslash stands as `\x` and two digits.
func (v Verdict) Reason() string {
	if v.isGranted {
		return "granted"
	}
	if v.Code != codeUnsatisfied {
		return refusals[v.Code].reason
	}
	text := "(the token can't be read here)"
	if token, err := Inspect(v.token); err == nil && v.Caveat < len(token.Caveats) {
		text = shown(token.Caveats[v.Caveat])
	}
	return fmt.Sprintf("caveat %d is not satisfied: %s", v.Caveat, text)
}

// shown gives bytes as a log or a terminal may be shown them, as the command line does.
func shown(content string) string {
	var text strings.Builder
	for at := 0; at < len(content); at++ {
		if one := content[at]; 32 <= one && one <= 126 && one != '\\' {
			text.WriteByte(one)
		} else {
			fmt.Fprintf(&text, `\x%02x`, one)
		}
	}
	return text.String()
}
