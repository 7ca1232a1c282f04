package macaroond

import (
	"encoding/base64"
	"errors"
	"strings"
	"unicode/utf8"
)

// The limits of a token's parts.
const (
	locationMax   = 1_024
	identifierMax = 4_096
	caveatsMax    = 128
	signatureSize = 32
)

// errNoToken tells a reader that the bytes spell no token of its form.
var errNoToken = errors.New("no token")

// Token is what a token says. Nobody has vouched for it: its signature is only
// looked at where the key is.
type Token struct {
	// Form is the form in which Attenuate writes the token.
	Form Form
	// Location is a hint of where the token is from; it is empty where there is none. It is
	// unsigned, even of a token that is granted: whoever holds the token can change it.
	Location string
	// Identifier is what the token's minter knows it by.
	Identifier string
	// Caveats are the conditions on the token's use, in their order.
	Caveats []string
	// Signature is the last HMAC of the token's chain.
	Signature [signatureSize]byte
}

// parts is a token as its readers give it.
type parts struct {
	location, identifier, signature string
	caveats                         []caveat
}

// caveat is a caveat; one with a vid is third-party.
type caveat struct {
	identifier, location string
	hasVid               bool
}

// Inspect tells what a token says, without a daemon, or that it is none: an
// ErrBadToken with the number that the daemon would answer.
func Inspect(token string) (Token, error) {
	read, form, code := read(token)
	if code != 0 {
		return Token{}, refused(code)
	}
	made := Token{Form: form, Location: read.location, Identifier: read.identifier}
	for _, one := range read.caveats {
		made.Caveats = append(made.Caveats, one.identifier)
	}
	copy(made.Signature[:], read.signature)
	return made, nil
}

// read gives a token's parts and its form, or the first fault in the order of docs/FORMATS.md.
func read(token string) (parts, Form, int) {
	if len(token) > tokenMax {
		return parts{}, 0, codeLimit
	}
	reader, form := readerOf(token)
	if reader == nil {
		bare, isText := decoded(token)
		if !isText || bare == "" {
			return parts{}, 0, codeTransport
		}
		reader, form = readerOf(bare)
		if reader == nil {
			return parts{}, 0, codeMalformed
		}
		token, form = bare, textForm(form)
	}
	read, err := reader(token)
	if err != nil {
		return parts{}, 0, codeMalformed
	}
	return read, form, read.fault()
}

// readerOf gives the reader of a bare form, and the form in which a token that came so is written.
func readerOf(token string) (func(string) (parts, error), Form) {
	switch {
	case strings.HasPrefix(token, "0"):
		return readPackets, V1Text
	case strings.HasPrefix(token, "\x02"):
		return readBinary, V2Binary
	case strings.HasPrefix(token, "{"):
		return readJSON, V2JSON
	}
	return nil, 0
}

// textForm gives the form in which a token is written that came as base64 of this one.
func textForm(form Form) Form {
	if form == V2Binary {
		return V2Text
	}
	return form
}

// formOf gives the form in which a token that came like this is written, by its first bytes alone.
func formOf(token string) Form {
	if _, form := readerOf(token); form != 0 {
		return form
	}
	front := (token + "AAAA")[:4]
	if bare, isText := decoded(front); isText {
		if _, form := readerOf(bare); form != 0 {
			return textForm(form)
		}
	}
	return V2Text
}

// fault gives the number of what keeps a verify from taking the token, or 0.
func (p parts) fault() int {
	isLong := len(p.location) > locationMax || len(p.identifier) > identifierMax || len(p.caveats) > caveatsMax
	isThirdParty, isLocated := false, false
	for _, one := range p.caveats {
		isThirdParty = isThirdParty || one.hasVid
		isLocated = isLocated || one.location != ""
		isLong = isLong || len(one.identifier) > caveatMax
	}
	switch {
	case isThirdParty:
		return codeThirdParty
	case isLocated:
		return codeLocation
	case isLong:
		return codeLimit
	}
	return 0
}

// decoded gives what a base64 text stands for (RFC 4648, sections 4 and 5): one
// alphabet throughout, all of the padding or none, and no bits that no byte uses.
func decoded(text string) (string, bool) {
	letters := strings.TrimRight(text, "=")
	padding := len(text) - len(letters)
	if padding != 0 && padding != (4-len(letters)%4)%4 || strings.ContainsAny(letters, "\r\n") {
		return "", false
	}
	encoding := base64.RawStdEncoding
	if strings.ContainsAny(letters, "-_") {
		encoding = base64.RawURLEncoding
	}
	content, err := encoding.Strict().DecodeString(letters)
	return string(content), err == nil
}

// demand gives errNoToken where what a token needs doesn't hold.
func demand(holds bool) error {
	if !holds {
		return errNoToken
	}
	return nil
}

// isUTF8 tells whether all of these are UTF-8.
func isUTF8(texts ...string) bool {
	for _, text := range texts {
		if !utf8.ValidString(text) {
			return false
		}
	}
	return true
}
