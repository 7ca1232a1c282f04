package macaroond

import (
	"encoding/binary"
	"math"
	"time"
)

// Limits of docs/FORMATS.md, and the sizes of a reply's parts.
const (
	hello        = 0x02 // what a stream of version two begins with
	frameMax     = 65_536
	tokenMax     = 32_768
	caveatMax    = 4_096
	replyFront   = 12 // the length of a reply's payload, and its place
	replyMin     = 8 + 1
	replyMax     = replyMin + tokenMax
	lengthOfSize = 4
)

// The numbers of a verify at a moment, and of one at the daemon's clock that asks
// whose a granted token is.
const (
	verifyAt    = 0x03
	verifyOwner = 0x05
)

// Form is a form in which a token is written; the numbers are those of the wire.
type Form byte

// The forms of a token.
const (
	V1Text   Form = 1 // base64 of version 1 packets
	V2Binary Form = 2 // version 2 binary
	V2JSON   Form = 3 // version 2 JSON
	V2Text   Form = 4 // base64 of version 2 binary
)

// payload appends a request's payload to what is there already.
type payload func(to []byte) ([]byte, error)

// appendFrame appends a request's frame, or leaves what is there as it was.
func appendFrame(to []byte, asked payload) ([]byte, error) {
	begin := len(to)
	framed, err := asked(append(to, 0, 0, 0, 0))
	if err != nil {
		return to, err
	}
	size := len(framed) - begin - lengthOfSize
	if size > frameMax {
		return to, badRequest("the request has %d bytes, and %d are the most", size, frameMax)
	}
	binary.BigEndian.PutUint32(framed[begin:], uint32(size))
	return framed, nil
}

// frameOf gives the frame of a request that can be told.
func frameOf(asked payload) []byte {
	frame, err := appendFrame(nil, asked)
	if err != nil {
		panic(err)
	}
	return frame
}

// appendShort appends a text behind its length, a number of one byte.
func appendShort(to []byte, text, name string) ([]byte, error) {
	if len(text) > math.MaxUint8 {
		return to, tooLong(text, name)
	}
	return append(append(to, byte(len(text))), text...), nil
}

// appendLong appends a text behind its length, a number of two bytes.
func appendLong(to []byte, text, name string) ([]byte, error) {
	if len(text) > math.MaxUint16 {
		return to, tooLong(text, name)
	}
	return append(append(to, byte(len(text)>>8), byte(len(text))), text...), nil
}

func tooLong(text, name string) error {
	return badRequest("the %s has %d bytes, more than a request can tell", name, len(text))
}

// appendList appends how many texts there are, and each behind its length.
func appendList(to []byte, texts []string, name string) ([]byte, error) {
	if len(texts) > math.MaxUint8 {
		return to, badRequest("%d are more %ss than a request can tell", len(texts), name)
	}
	to = append(to, byte(len(texts)))
	for _, text := range texts {
		var err error
		if to, err = appendLong(to, text, name); err != nil {
			return to, err
		}
	}
	return to, nil
}

// appendToken appends a token. One that is too long is cut to one that is too long
// by a byte: the daemon answers both alike.
func appendToken(to []byte, token string) ([]byte, error) {
	if len(token) > tokenMax+1 {
		token = token[:tokenMax+1]
	}
	return appendLong(to, token, "token")
}

// Mint is what a new token is made of.
type Mint struct {
	// Key is the name of the daemon's key.
	Key string
	// Identifier is what the minter knows the token by. Where it is left out, a client draws
	// 128 random bits in hexadecimal, which Inspect tells.
	Identifier string
	// EmptyIdentifier says that an identifier that is left out is the empty one.
	EmptyIdentifier bool
	// Location is a hint of where the token is used, in UTF-8; it is signed by nothing.
	Location string
	// Caveats are the conditions on the token's use.
	Caveats []string
	// Form is the form in which the token is written: V2Text where it is left out.
	Form Form
}

func (m Mint) appendPayload(to []byte) ([]byte, error) {
	form := m.Form
	if form == 0 {
		form = V2Text
	}
	to, err := appendShort(append(to, 0x01, byte(form)), m.Key, "key's name")
	if err != nil {
		return to, err
	}
	if to, err = appendLong(to, m.Location, "location"); err != nil {
		return to, err
	}
	if to, err = appendLong(to, m.Identifier, "identifier"); err != nil {
		return to, err
	}
	return appendList(to, m.Caveats, "caveat")
}

type attenuation struct {
	form    Form
	token   string
	caveats []string
}

func (a attenuation) appendPayload(to []byte) ([]byte, error) {
	to, err := appendToken(append(to, 0x02, byte(a.form)), a.token)
	if err != nil {
		return to, err
	}
	return appendList(to, a.caveats, "caveat")
}

// Check is a token that is to be verified.
type Check struct {
	// Token is the token, in any form.
	Token string
	// Facts are what is known of the token's use; they are believed.
	Facts []string
	// At is the moment of the verify: that of the daemon's clock where it is left out.
	At time.Time
}

type verification struct {
	key string
	Check
}

func (v *verification) appendPayload(to []byte) ([]byte, error) {
	kind := byte(verifyAt)
	if v.At.IsZero() {
		kind = verifyOwner
	}
	to, err := appendShort(append(to, kind), v.key, "key's name")
	if err != nil {
		return to, err
	}
	if to, err = appendToken(to, v.Token); err != nil {
		return to, err
	}
	if kind == verifyAt {
		if to, err = appendMoment(to, v.At); err != nil {
			return to, err
		}
	}
	return appendList(to, factsThatCount(v.Facts), "fact")
}

// appendMoment appends a moment.
func appendMoment(to []byte, at time.Time) ([]byte, error) {
	if at.Unix() < 0 {
		return to, badRequest("the moment %v is before 1970", at)
	}
	return binary.BigEndian.AppendUint64(to, uint64(at.Unix())), nil
}

// factsThatCount leaves out what is longer than any caveat, and so satisfies none.
func factsThatCount(facts []string) []string {
	for at, fact := range facts {
		if len(fact) > caveatMax {
			counting := append([]string(nil), facts[:at]...)
			for _, other := range facts[at:] {
				if len(other) <= caveatMax {
					counting = append(counting, other)
				}
			}
			return counting
		}
	}
	return facts
}

// raw is a request's payload as it is.
type raw string

func (r raw) appendPayload(to []byte) ([]byte, error) { return append(to, r...), nil }

// A reply's payload: its first byte, and what follows.
type reply struct {
	code byte
	rest string
}
