// The loop of a runner: a row in JSON on each line of the standard input, an answer in JSON on each line of the output.
//
// A runner has a function for each kind of row that its library has a call for. An error says that
// the library refuses what is given; a refusal says why too.
package main

import (
	"bufio"
	"encoding/base64"
	"encoding/hex"
	"encoding/json"
	"errors"
	"fmt"
	"os"
	"strings"
)

// text is bytes, which a row shows as printable ASCII or as hexadecimal.
type text string

// given has the members of all kinds of rows.
type given struct {
	Token, Secret, Location, Identifier text
	Secrets, Caveats, Facts             []text
	Form                                string
}

type caveat struct {
	Identifier text  `json:"identifier"`
	Vid        *text `json:"vid,omitempty"`
	Location   text  `json:"location,omitempty"`
}

// parts is what a token says.
type parts struct {
	Location   text     `json:"location"`
	Identifier text     `json:"identifier"`
	Caveats    []caveat `json:"caveats"`
	Signature  string   `json:"signature"`
}

// library has the functions that answer rows, nil where the library has no call for them. What is
// written is bare bytes, of which texts are made here.
type library struct {
	reading   func(token []byte) (parts, error)
	writing   func(given) ([]byte, error)
	narrowing func(given) ([]byte, error)
	signature func(given) ([]byte, error)
	verdict   func(given) bool
	// Whether a refusal is told, and so that there is none.
	tellsWhy bool
}

type answer map[string]interface{}

type refusal string

func (r refusal) Error() string { return string(r) }

func partsOf(location, identifier, signature []byte) parts {
	return parts{text(location), text(identifier), []caveat{}, hex.EncodeToString(signature)}
}

// add puts a caveat behind the others; a nil vid is none.
func (p *parts) add(identifier, vid []byte, location string) {
	made := caveat{Identifier: text(identifier), Location: text(location)}
	if content := text(vid); vid != nil {
		made.Vid = &content
	}
	p.Caveats = append(p.Caveats, made)
}

// check tells whether a caveat is a fact.
func (g given) check(caveat string) error {
	for _, fact := range g.Facts {
		if string(fact) == caveat {
			return nil
		}
	}
	return errors.New("no fact says so")
}

func (t *text) UnmarshalJSON(content []byte) error {
	var word string
	err := json.Unmarshal(content, &word)
	*t = text(word)
	if digits := strings.TrimPrefix(word, "hex:"); digits != word && err == nil {
		bytes, fault := hex.DecodeString(digits)
		*t, err = text(bytes), fault
	}
	return err
}

func (t text) MarshalJSON() ([]byte, error) {
	isPlain := !strings.HasPrefix(string(t), "hex:")
	for _, letter := range []byte(t) {
		isPlain = isPlain && letter >= 0x20 && letter < 0x7f
	}
	if !isPlain {
		return json.Marshal("hex:" + hex.EncodeToString([]byte(t)))
	}
	return json.Marshal(string(t))
}

// run answers each row.
func run(asked library) {
	lines := bufio.NewScanner(os.Stdin)
	lines.Buffer(nil, 1<<20)
	for lines.Scan() {
		var row struct {
			Kind  string
			Given given
		}
		if err := json.Unmarshal(lines.Bytes(), &row); err != nil {
			panic(err)
		}
		line, _ := json.Marshal(asked.answer(row.Kind, row.Given))
		fmt.Println(string(line))
	}
}

func (l library) answer(kind string, row given) answer {
	switch {
	case kind == "reading" && l.reading != nil:
		told, err := l.reading([]byte(row.Token))
		return l.told("spells", told, err)
	case kind == "writing" && l.writing != nil:
		return l.made(l.writing, row)
	case kind == "narrowing" && l.narrowing != nil:
		return l.made(l.narrowing, row)
	case kind == "signature" && l.signature != nil:
		told, err := l.signature(row)
		return l.told("digest", hex.EncodeToString(told), err)
	case kind == "verdict" && l.verdict != nil:
		return answer{"granted": l.verdict(row)}
	}
	return answer{"skip": "it has no call for this"}
}

// made tells of a token that was written.
func (l library) made(write func(given) ([]byte, error), row given) answer {
	if row.Form == "v2-json" && !l.tellsWhy {
		return answer{"skip": "JSON's spelling is its own"}
	}
	content, err := write(row)
	if strings.HasSuffix(row.Form, "-text") {
		content = []byte(base64.RawURLEncoding.EncodeToString(content))
	}
	return l.told("token", text(content), err)
}

func (l library) told(member string, value interface{}, err error) answer {
	var why refusal
	switch {
	case errors.As(err, &why):
		return answer{"refusal": string(why)}
	case err != nil:
		return answer{member: nil}
	case l.tellsWhy:
		return answer{member: value, "refusal": nil}
	}
	return answer{member: value}
}
