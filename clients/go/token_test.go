package macaroond

import (
	"encoding/base64"
	"encoding/hex"
	"errors"
	"os"
	"path/filepath"
	"strconv"
	"strings"
	"testing"
)

// The repository's cases, whose values were made elsewhere.
const caseFolder = "../../scripts/check/cases"

var (
	signature, _ = hex.DecodeString("e3d9e02908526c4c0039ae15114115d97fdd68bf2ba379b342aaf0f617d0552f")
	binaryToken  = "\x02\x01\x0ehttp://mybank/\x02\x16we used our secret key\x00\x00\x06\x20" + string(signature)
	plain        = `{"i":"a","s64":"` + base64.URLEncoding.EncodeToString(signature) + `"`
)

// fault gives the number of what is wrong with a token, or 0.
func fault(token string) int {
	_, err := Inspect(token)
	var refusal *RefusedError
	if errors.As(err, &refusal) {
		return refusal.Code
	}
	return 0
}

// tokenOf gives the token of an attenuate's or a verify's payload, where it has one.
func tokenOf(payload string) (string, bool) {
	switch {
	case strings.HasPrefix(payload, "\x02") && len(payload) > 2:
		payload = payload[2:]
	case strings.HasPrefix(payload, "\x03") && len(payload) > 2+int(payload[1]):
		payload = payload[2+int(payload[1]):]
	default:
		return "", false
	}
	if len(payload) < 2 || len(payload) < 2+int(payload[0])<<8+int(payload[1]) {
		return "", false
	}
	return payload[2 : 2+int(payload[0])<<8+int(payload[1])], true
}

// Each token of the cases has the fault that its request is refused for, or none where that is of a token.
func TestCases(t *testing.T) {
	looked := 0
	wanted, _ := filepath.Glob(filepath.Join(caseFolder, "*.stdout"))
	for _, name := range wanted {
		asked, _ := os.ReadFile(strings.TrimSuffix(name, ".stdout"))
		told, _ := os.ReadFile(name)
		_, requests, _ := strings.Cut(string(asked), "\n\n")
		answers := strings.Split(strings.TrimSpace(string(told)), "\n")
		for number, line := range strings.Split(strings.TrimSpace(requests), "\n") {
			payload, _ := hex.DecodeString(line)
			token, isThere := tokenOf(string(payload))
			number, answer := number, answers[number]
			code, _ := strconv.Atoi(strings.TrimPrefix(answer, "refused "))
			if !isThere || code == codeBadRequest || code == codeUnknownKey || code == codeLimit && payload[0] == 2 {
				continue
			}
			if class := refusals[code].class; class != ErrBadToken {
				code = 0
			}
			if came := fault(token); came != code {
				t.Errorf("%s, request %d: %d where %s was due", name, number, came, answer)
			}
			looked++
		}
	}
	if looked < 80 {
		t.Errorf("only %d tokens were looked at", looked)
	}
}

func TestInspect(t *testing.T) {
	token, err := Inspect(binaryToken)
	if err != nil || token.Form != V2Binary || token.Location != "http://mybank/" ||
		token.Identifier != "we used our secret key" || len(token.Caveats) != 0 || string(token.Signature[:]) != string(signature) {
		t.Error(token, err)
	}
	object := plain + `,"c":[{"i":"b"},{"i64":"_w"}],"l":"c"}`
	for given, form := range map[string]Form{
		object: V2JSON,
		base64.StdEncoding.EncodeToString([]byte(object)):         V2JSON,
		base64.RawURLEncoding.EncodeToString([]byte(binaryToken)): V2Text,
		binaryToken: V2Binary,
	} {
		token, err := Inspect(given)
		if err != nil || token.Form != form || formOf(given) != form {
			t.Error(given, token, err)
		}
		if form == V2JSON && strings.Join(token.Caveats, " ") != "b \xff" {
			t.Error(token.Caveats)
		}
	}
	if formOf("!") != V2Text || formOf("") != V2Text || formOf("MDAx") != V1Text {
		t.Error("the form of a few bytes")
	}
}

// Numbers that 64 bits don't hold were read without the bits above: rows of vectors/ found it.
func TestLongNumbers(t *testing.T) {
	for short, long := range map[string]string{
		"\x16we":   "\x96\x80\x80\x80\x80\x80\x80\x80\x80\x02we",
		"\x02\x16": "\x82\x80\x80\x80\x80\x80\x80\x80\x80\x02\x16",
		"\x06\x20": "\x06\xa0\x80\x80\x80\x80\x80\x80\x80\x80\x40",
	} {
		if code := fault(strings.Replace(binaryToken, short, long, 1)); code != codeMalformed {
			t.Errorf("%q is %d", long, code)
		}
	}
}

// What the daemon's reader takes and doesn't, where one of Go's might say otherwise; 0 is taken.
func TestFaults(t *testing.T) {
	deep := strings.Repeat("[", 126) + strings.Repeat("]", 126)
	for token, due := range map[string]int{
		"":                                    codeTransport,
		"!":                                   codeTransport,
		"YQ":                                  codeMalformed,
		"+_8A":                                codeTransport,
		"AgEO=":                               codeTransport,
		"Ag\nEO":                              codeTransport,
		strings.Repeat("a", 40_000):           codeLimit,
		binaryToken + "\x00":                  codeMalformed,
		"\x02\x02\x81\x00a\x00\x00\x06\x20":   codeMalformed,
		"0000location \n":                     codeMalformed,
		plain + "}":                           0,
		plain + `,"x":NaN}`:                   codeMalformed,
		plain + `,"x":1e400}`:                 codeMalformed,
		plain + `,"x":-1e-400}`:               0,
		plain + `,"x":"\ud800"}`:              codeMalformed,
		plain + `,"x":"\ude00"}`:              codeMalformed,
		plain + `,"x":"\ude00\ud83d"}`:        codeMalformed,
		plain + `,"x":"\ud83d\ude00"}`:        0,
		plain + `,"x":"\ud83d \ude00"}`:       codeMalformed,
		plain + `,"x":"\ud83d","y":"\ude00"}`: codeMalformed,
		plain + `,"x":"\\ud800"}`:             0,
		plain + `,"x":"\u0000"}`:              0,
		plain + `,"x":"\ud800","x":1}`:        codeMalformed,
		plain + `,"x":` + deep + "}":          0,
		plain + `,"x":[` + deep + "]}":        codeMalformed,
		plain + `,"v":2}`:                     0,
		plain + `,"v":2 }`:                    0,
		plain + `,"v": 2}`:                    0,
		plain + `,"V":3}`:                     0,
		plain + `,"v":2.0}`:                   codeMalformed,
		plain + `,"v":1,"v":2}`:               0,
		plain + `,"i64":"YQ"}`:                codeMalformed,
		plain + `,"I":"b"}`:                   0,
		plain + `,"l":null}`:                  codeMalformed,
		plain + `,"c":null}`:                  codeMalformed,
		plain + `,"c":[null]}`:                codeMalformed,
		plain + `,"c":[{"i":"a","v":""}]}`:    codeThirdParty,
		plain + `,"c":[{"i":"a","l":"b"}]}`:   codeLocation,
		plain + `,"c":[{"i64":"YR"}]}`:        codeMalformed,
		plain + `,"l":"` + "\xff" + `"}`:      codeMalformed,
		plain + `} `:                          0,
		plain + `}{}`:                         codeMalformed,
		strings.Replace(plain, "a", "b\xc3\xa9", 1) + "}": 0,
	} {
		if came := fault(token); came != due {
			t.Errorf("%.80q: %d where %d was due", token, came, due)
		}
	}
}
