package macaroond

import "testing"

// Each reply has its own rest, whatever the one before told; and no token is kept.
func TestTextOf(t *testing.T) {
	var owed ledger
	for _, one := range []struct {
		code byte
		rest string
	}{
		{codeGrantedTo, "alice"}, {codeGrantedTo, "alice"}, {codeGrantedTo, "bob"}, {codeToken, "secret"},
		{codeGrantedTo, "bob"}, {codeGranted, ""}, {codeGrantedTo, ""}, {codeGrantedTo, "alic"},
	} {
		if text := owed.textOf(one.code, []byte(one.rest)); text != one.rest {
			t.Errorf("%q of %q", text, one.rest)
		}
		if owed.owner == "secret" {
			t.Error("a token is kept")
		}
	}
}
