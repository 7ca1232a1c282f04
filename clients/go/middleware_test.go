package macaroond

import (
	"context"
	"errors"
	"fmt"
	"log"
	"net/http"
	"net/http/httptest"
	"os"
	"strings"
	"testing"
	"time"
)

func TestRequireMacaroon(t *testing.T) {
	// Answers a verify by its one fact.
	judges := func(s *stream) {
		replies := map[string]string{"granted": "\x00", "owned": "\x03\x00\x05carol\x00\x00", "forged": "\x17", "narrow": "\x18\x00\x07", "unknown": "\x12", "forbidden": "\x1b",
			"untexted": "\x13", "malformed": "\x14", "third-party": "\x15", "limited": "\x16", "located": "\x1a", "clockless": "\x1c", "revoked": "\x1d"}
		for payload, isThere := s.request(); isThere; payload, isThere = s.request() {
			for fact, content := range replies {
				if strings.HasSuffix(string(payload), fact) {
					s.reply([]byte(content))
				}
			}
		}
	}
	// A token whose identifier is `alice`; what signs it doesn't matter to the scripted server.
	token := "AgIFYWxpY2UAAAYg" + strings.Repeat("A", 43)
	client := dialled(t, server(t, judges))
	facts := func(r *http.Request) []string {
		if r.URL.Path == "/many" {
			return make([]string, 256)
		}
		return []string{r.URL.Path[1:]}
	}
	var logged strings.Builder
	var seen Judgement
	options := []GuardOption{GuardLog(log.New(&logged, "", 0)), GuardHook(func(_ *http.Request, found Judgement) { seen = found })}
	guarded := RequireMacaroon(client, "bank", facts, options...)(http.HandlerFunc(func(w http.ResponseWriter, r *http.Request) {
		identifier, _ := Identifier(r.Context())
		w.Write([]byte(identifier))
	}))
	for _, one := range []struct {
		header, path string
		status       int
		challenge    string
		reason       string
		told         string
	}{
		{"Bearer " + token, "/granted", 200, "", "granted", ""},
		{"bearer  " + token, "/granted", 200, "", "granted", ""},
		{"MACAROON " + token, "/granted", 200, "", "granted", ""},
		{"Bearer " + token, "/owned", 200, "", "granted", ""},
		{"", "/granted", 401, "Macaroon", "no_token", ""},
		{"Bearer", "/granted", 401, "Macaroon", "no_token", ""},
		{"Bearer ", "/granted", 401, "Macaroon", "no_token", ""},
		{"Basic " + token, "/granted", 401, "Macaroon", "no_token", ""},
		{"Bearers " + token, "/granted", 401, "Macaroon", "no_token", ""},
		{"Bearer " + token, "/forged", 401, `Bearer error="invalid_token"`, "23", ""},
		{"Macaroon " + token, "/forged", 401, `Macaroon error="invalid_token"`, "23", ""},
		{"Bearer " + token, "/narrow", 403, `Bearer error="insufficient_scope"`, "24 caveat=7", "24 7"},
		{"Macaroon " + token, "/narrow", 403, `Macaroon error="insufficient_scope"`, "24 caveat=7", "24 7"},
		{"Bearer " + token, "/untexted", 401, `Bearer error="invalid_token"`, "19", ""},
		{"Bearer " + token, "/malformed", 401, `Bearer error="invalid_token"`, "20", ""},
		{"Bearer " + token, "/third-party", 401, `Bearer error="invalid_token"`, "21", ""},
		{"Bearer " + token, "/limited", 401, `Bearer error="invalid_token"`, "22", ""},
		{"Bearer " + token, "/located", 401, `Bearer error="invalid_token"`, "26", ""},
		{"Bearer " + token, "/revoked", 401, `Bearer error="invalid_token"`, "29", ""},
		{"Macaroon " + token, "/revoked", 401, `Macaroon error="invalid_token"`, "29", ""},
		{"Bearer " + token, "/unknown", 503, "", "18", ""},
		{"Bearer " + token, "/clockless", 503, "", "28", ""},
		{"Bearer " + token, "/forbidden", 503, "", "27", ""},
		{"Bearer " + token, "/many", 400, "", "facts", ""},
	} {
		asked := httptest.NewRequest("GET", one.path, nil)
		asked.Header.Set("Authorization", one.header)
		came := httptest.NewRecorder()
		logged.Reset()
		guarded.ServeHTTP(came, asked)
		text := came.Body.String()
		isLetThrough := text == "alice" && one.path == "/granted" || text == "carol" && one.path == "/owned"
		due := fmt.Sprintf("status=%d reason=%s", one.status, one.reason)
		line := "macaroon refused: " + due + "\n"
		if one.status == 200 {
			line = ""
		}
		if came.Header().Get("Macaroon-Reason") != one.told || seen.String() != due || logged.String() != line {
			t.Errorf("%q, %s: %q %v %q", one.header, one.path, came.Header().Get("Macaroon-Reason"), seen, &logged)
		}
		if came.Code != one.status || came.Header().Get("WWW-Authenticate") != one.challenge || isLetThrough != (one.status == 200) {
			t.Errorf("%q, %s: %d %q %q", one.header, one.path, came.Code, came.Header().Get("WWW-Authenticate"), came.Body)
		}
	}
	for _, fields := range [][]string{nil, {"Bearer " + token, "Bearer " + token}, {"Bearer " + token, "Basic x"}, {"Basic x", "Macaroon " + token}} {
		asked := httptest.NewRequest("GET", "/granted", nil)
		asked.Header["Authorization"] = fields
		came := httptest.NewRecorder()
		guarded.ServeHTTP(came, asked)
		if came.Code != 401 || came.Header().Get("WWW-Authenticate") != "Macaroon" {
			t.Errorf("%q: %d %q", fields, came.Code, came.Header().Get("WWW-Authenticate"))
		}
	}
	if _, isThere := Identifier(background); isThere {
		t.Error("an identifier without a token")
	}
}

// The id of a request stands in the log, where it brings one that may.
func TestLoggedIDs(t *testing.T) {
	ids := []string{"a", "8f14e45fceea167a5a36dedd4bea2543", "2030f39a-86d8-4bfd-aead-06f154c3e1f6", "A.b_c-0", strings.Repeat("9", 40)}
	others := [][]string{nil, {}, {"a", "b"}, {""}, {strings.Repeat("9", 41)}, {"a b"}, {"a=b"}, {"a\nb"}, {"a\n"}, {"\xe4"}, {"a,b"}, {"{}"}}
	for _, id := range ids {
		if line := loggedWithout(t, id); line != "macaroon refused: status=401 reason=no_token id="+id+"\n" {
			t.Errorf("%q: %q", id, line)
		}
	}
	for _, fields := range others {
		if line := loggedWithout(t, fields...); line != "macaroon refused: status=401 reason=no_token\n" {
			t.Errorf("%q: %q", fields, line)
		}
	}
}

// loggedWithout gives what is logged of a request without a token that brings these ids.
func loggedWithout(t *testing.T, ids ...string) string {
	t.Helper()
	var logged strings.Builder
	asked := httptest.NewRequest("GET", "/", nil)
	asked.Header["X-Request-Id"] = ids
	guarded := RequireMacaroon(nil, "bank", nil, GuardLog(log.New(&logged, "", 0)))(http.NotFoundHandler())
	guarded.ServeHTTP(httptest.NewRecorder(), asked)
	return logged.String()
}

// tried gives what a guard makes of a request with a token, and how long it took.
func tried(ctx context.Context, guarded http.Handler, seen *Judgement) (string, time.Duration) {
	asked := httptest.NewRequest("GET", "/", nil).WithContext(ctx)
	asked.Header.Set("Authorization", "Bearer AgIFYWxpY2UAAAYg"+strings.Repeat("A", 43))
	begin := time.Now()
	guarded.ServeHTTP(httptest.NewRecorder(), asked)
	return seen.String(), time.Since(begin)
}

// watched gives a guard of a client, and where it tells what became of the last request.
func watched(client *Client, options ...GuardOption) (http.Handler, *Judgement) {
	seen := new(Judgement)
	hook := GuardHook(func(_ *http.Request, found Judgement) { *seen = found })
	return RequireMacaroon(client, "bank", nil, append(options, hook)...)(http.NotFoundHandler()), seen
}

// A daemon that is gone is asked by few; one that has come back is asked again.
func TestGuardOfAnAbsentDaemon(t *testing.T) {
	path := server(t, leaves)
	client := dialled(t, path)
	client.Ask(background, []byte("x"))
	os.Remove(path)
	guarded, seen := watched(client, GuardTimeout(200*time.Millisecond))
	for count := 0; count < 3; count++ {
		if reason, took := tried(background, guarded, seen); reason != "status=503 reason=away" || took > time.Second {
			t.Error(reason, took)
		}
	}
	begin := time.Now()
	for count := 0; count < 200; count++ {
		if reason, _ := tried(background, guarded, seen); reason != "status=503 reason=away" {
			t.Error(reason)
		}
	}
	if took := time.Since(begin); took > time.Second {
		t.Error("refused at once in", took)
	}
	serve(t, path, grants)
	reason := ""
	for until := time.Now().Add(10 * time.Second); reason != "status=200 reason=granted" && time.Now().Before(until); {
		time.Sleep(20 * time.Millisecond)
		reason, _ = tried(background, guarded, seen)
	}
	if reason != "status=200 reason=granted" {
		t.Error(reason)
	}
}

func TestGuardOfADaemonThatHangs(t *testing.T) {
	hangs := func(s *stream) { s.requests(9) }
	guarded, seen := watched(dialled(t, server(t, hangs)), GuardTimeout(100*time.Millisecond))
	for _, due := range []string{"late", "late", "late", "away"} {
		if reason, _ := tried(background, guarded, seen); reason != "status=503 reason="+due {
			t.Error(reason, "where due is", due)
		}
	}
	guarded, seen = watched(dialled(t, server(t, hangs)))
	if reason, took := tried(background, guarded, seen); reason != "status=503 reason=late" || took < 900*time.Millisecond || took > 3*time.Second {
		t.Error(reason, took)
	}
}

// Who leaves says nothing of the daemon.
func TestGuardWhoseAskersLeave(t *testing.T) {
	guarded, seen := watched(dialled(t, server(t, func(s *stream) { s.requests(9) })))
	for count := 0; count < 5; count++ {
		ctx, leave := context.WithCancel(background)
		time.AfterFunc(20*time.Millisecond, leave)
		if reason, _ := tried(ctx, guarded, seen); reason != "status=503 reason=gone" {
			t.Error(reason)
		}
	}
}

func TestBreaker(t *testing.T) {
	now := time.Unix(1_000, 0)
	made := newBreaker(time.Second)
	made.clock = func() time.Time { return now }
	fail := func(count int) {
		for ; count > 0; count-- {
			if !made.allows() {
				t.Error("a call is refused")
			}
			made.note(ErrDisconnected, background)
		}
	}
	allowed := func(due ...bool) {
		t.Helper()
		for _, one := range due {
			if made.allows() != one {
				t.Error("not", one)
			}
		}
	}
	fail(2)
	made.note(nil, background)
	fail(2)
	made.note(refused(codeUnknownKey), background)
	fail(2)
	made.note(badRequest("x"), background)
	fail(1)
	allowed(false)
	now = now.Add(2 * time.Second)
	allowed(true, false, false)
	now = now.Add(900 * time.Millisecond)
	allowed(false)
	now = now.Add(200 * time.Millisecond)
	allowed(true, false)
	made.note(nil, background)
	allowed(true, true)
	fail(2)
	for _, pause := range []time.Duration{50, 100, 200, 400, 800, 1600, 2000, 2000} {
		fail(1)
		now = now.Add(pause * time.Millisecond / 4)
		allowed(false)
		now = now.Add(pause * time.Millisecond)
	}
	if !errors.Is(&unconnectedError{"x", context.DeadlineExceeded}, context.DeadlineExceeded) {
		t.Error("an end of a context is none")
	}
}
