package macaroond

import (
	"encoding/hex"
	"errors"
	"strings"
	"testing"
	"time"
)

func verifying(key string, check Check) payload {
	return (&verification{key, check}).appendPayload
}

// The bytes are those of docs/FORMATS.md.
func TestRequests(t *testing.T) {
	for due, asked := range map[string]payload{
		"01010462616e6b000e687474703a2f2f6d7962616e6b2f001677652075736564206f757220736563726574206b657900": Mint{
			Key: "bank", Identifier: "we used our secret key", Location: "http://mybank/", Form: V1Text}.appendPayload,
		"030161000121000000000000000500": verifying("a", Check{Token: "!", At: time.Unix(5, 0)}),
		"05016100012101000166":           verifying("a", Check{Token: "!", Facts: []string{"f"}}),
		"0203000121020001610001ff":       attenuation{V2JSON, "!", []string{"a", "\xff"}}.appendPayload,
	} {
		frame, err := appendFrame(nil, asked)
		if err != nil || hex.EncodeToString(frame[4:]) != due || int(frame[3]) != len(due)/2 {
			t.Errorf("%x, %v", frame, err)
		}
	}
}

// What a request can't tell is an error; what changes no verdict is cut or left out.
func TestTooLong(t *testing.T) {
	for _, asked := range []payload{
		Mint{Key: strings.Repeat("b", 256)}.appendPayload,
		Mint{Location: strings.Repeat("l", 65_536)}.appendPayload,
		Mint{Identifier: strings.Repeat("i", 65_536)}.appendPayload,
		Mint{Caveats: make([]string, 256)}.appendPayload,
		verifying("b", Check{Facts: make([]string, 256)}),
		verifying("b", Check{At: time.Unix(-1, 0)}),
		raw(strings.Repeat("a", 65_537)).appendPayload,
	} {
		if frame, err := appendFrame([]byte("kept"), asked); !errors.Is(err, ErrBadRequest) || string(frame[:4]) != "kept" {
			t.Errorf("%.40q, %v", frame, err)
		}
	}
	at := time.Unix(5, 0)
	for _, alike := range [][2]Check{
		{{Token: strings.Repeat("!", 70_000), At: at}, {Token: strings.Repeat("!", 32_769), At: at}},
		{{Facts: []string{"a", strings.Repeat("f", 4_097), "b"}, At: at}, {Facts: []string{"a", "b"}, At: at}},
	} {
		one, _ := appendFrame(nil, verifying("b", alike[0]))
		other, _ := appendFrame(nil, verifying("b", alike[1]))
		if string(one) != string(other) {
			t.Errorf("%.40q and %.40q", one, other)
		}
	}
}
