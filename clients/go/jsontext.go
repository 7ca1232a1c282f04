package macaroond

import (
	"bytes"
	"encoding/json"
	"errors"
	"io"
	"strconv"
	"strings"
	"unicode/utf8"
)

// Version 2 JSON: one object of RFC 8259, read as the daemon reads it. That is what
// encoding/json takes, but for numbers that no float holds, half of a surrogate
// pair, bytes that aren't UTF-8, and nesting deeper than 127; and the names of
// members are taken letter by letter.

const nestingMax = 127

type object map[string]json.RawMessage

// readJSON reads the token that this object spells.
func readJSON(content string) (parts, error) {
	token, err := members([]byte(content))
	if err != nil || !lexemesAreTaken(content) {
		return parts{}, errNoToken
	}
	reader := memberReader{}
	version, hasVersion := token["v"]
	reader.demand(!hasVersion || string(version) == "2")
	read := parts{location: reader.text(token, "l"), identifier: reader.oneOf(token, "i"), signature: reader.oneOf(token, "s")}
	reader.demand(len(read.signature) == signatureSize)
	for _, one := range reader.list(token, "c") {
		read.caveats = append(read.caveats, reader.caveat(one))
	}
	return read, reader.err
}

// members gives the members of the object that is the whole input; of a repeated one the last.
func members(content []byte) (object, error) {
	var found object
	if len(content) == 0 || content[0] != '{' {
		return nil, errNoToken
	}
	return found, json.Unmarshal(content, &found)
}

// lexemesAreTaken tells whether the daemon too takes the numbers, the strings and the nesting of a text that is JSON.
func lexemesAreTaken(content string) bool {
	if !utf8.ValidString(content) || hasHalfPair(content) {
		return false
	}
	decoder := json.NewDecoder(bytes.NewReader([]byte(content)))
	decoder.UseNumber()
	depth := 0
	for {
		token, err := decoder.Token()
		if err != nil {
			return errors.Is(err, io.EOF)
		}
		switch token := token.(type) {
		case json.Delim:
			if token == '[' || token == '{' {
				depth++
			} else {
				depth--
			}
		case json.Number:
			if _, err := strconv.ParseFloat(token.String(), 64); err != nil {
				return false
			}
		}
		if depth > nestingMax {
			return false
		}
	}
}

// hasHalfPair tells whether an escape in a text that is JSON spells half of a surrogate pair that stands alone.
func hasHalfPair(content string) bool {
	isOpen := false
	for {
		at := strings.IndexByte(content, '\\')
		if at < 0 || at+1 == len(content) {
			return isOpen
		}
		unit := uint64(0)
		if content[at+1] == 'u' && at+6 <= len(content) {
			unit, _ = strconv.ParseUint(content[at+2:at+6], 16, 16)
		}
		isSecond := unit >= 0xdc00 && unit < 0xe000
		if isOpen != (isSecond && at == 0) || isSecond && !isOpen {
			return true
		}
		isOpen = unit >= 0xd800 && unit < 0xdc00
		if unit != 0 {
			content = content[at+6:]
		} else {
			content = content[at+2:]
		}
	}
}

// memberReader reads members; once something is wrong, err stays.
type memberReader struct{ err error }

func (r *memberReader) demand(holds bool) {
	if r.err == nil {
		r.err = demand(holds)
	}
}

func (r *memberReader) caveat(content json.RawMessage) caveat {
	one, err := members(content)
	r.demand(err == nil)
	read := caveat{identifier: r.oneOf(one, "i"), location: r.text(one, "l")}
	_, read.hasVid = r.inASpelling(one, "v")
	return read
}

func (r *memberReader) list(found object, name string) []json.RawMessage {
	content, isThere := found[name]
	if !isThere {
		return nil
	}
	var made []json.RawMessage
	r.demand(content[0] == '[' && json.Unmarshal(content, &made) == nil)
	return made
}

// text gives a member that is a text, or nothing where there is none of the name.
func (r *memberReader) text(found object, name string) string {
	content, isThere := found[name]
	if !isThere {
		return ""
	}
	var made string
	r.demand(content[0] == '"' && json.Unmarshal(content, &made) == nil)
	return made
}

// inASpelling gives a field, where it is there: as text, or in base64 under the name with 64 behind it.
func (r *memberReader) inASpelling(found object, name string) (content string, isThere bool) {
	_, isPlain := found[name]
	_, isCoded := found[name+"64"]
	r.demand(!isPlain || !isCoded)
	if !isCoded {
		return r.text(found, name), isPlain
	}
	content, isText := decoded(r.text(found, name+"64"))
	r.demand(isText)
	return content, true
}

// oneOf gives a field that has to be there.
func (r *memberReader) oneOf(found object, name string) string {
	content, isThere := r.inASpelling(found, name)
	r.demand(isThere)
	return content
}
