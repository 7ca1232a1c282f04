package macaroond

import (
	"bytes"
	"context"
	"encoding/hex"
	"errors"
	"fmt"
	"math"
	"math/rand"
	"path/filepath"
	"strings"
	"sync"
	"sync/atomic"
	"syscall"
	"testing"
	"time"
)

var background = context.Background()

func dialled(t testing.TB, path string, options ...Option) *Client {
	t.Helper()
	client, err := Dial(background, path, options...)
	if err != nil {
		t.Fatal(err)
	}
	t.Cleanup(func() { client.Close() })
	return client
}

// atOnce asks so many payloads by goroutines, and gives what each came to.
func atOnce(client *Client, payloads int) (replies [][]byte, errs []error) {
	replies, errs = make([][]byte, payloads), make([]error, payloads)
	var all sync.WaitGroup
	for number := range replies {
		all.Add(1)
		go func(number int) {
			defer all.Done()
			replies[number], errs[number] = client.Ask(background, []byte(fmt.Sprint(number)))
		}(number)
	}
	all.Wait()
	return replies, errs
}

// Each reply goes to who asked, however the bytes come.
func TestEachItsOwn(t *testing.T) {
	cuts := func(s *stream) {
		for payload, isThere := s.request(); isThere; payload, isThere = s.request() {
			for _, one := range s.framed(append([]byte{codeToken}, payload...)) {
				s.Write([]byte{one})
			}
		}
	}
	glues := func(s *stream) {
		for payloads := s.requests(50); len(payloads) > 0; payloads = s.requests(50) {
			var content []byte
			for _, payload := range payloads {
				content = append(content, s.framed(append([]byte{codeToken}, payload...))...)
			}
			s.Write(content[:len(content)-3])
			time.Sleep(10 * time.Millisecond)
			s.Write(content[len(content)-3:])
		}
	}
	for name, script := range map[string]script{"whole": echoes, "cut": cuts, "glued": glues} {
		t.Run(name, func(t *testing.T) {
			replies, errs := atOnce(dialled(t, server(t, script)), 200)
			for number, came := range replies {
				if errs[number] != nil || string(came) != "\x01"+fmt.Sprint(number) {
					t.Errorf("request %d: %q, %v", number, came, errs[number])
				}
			}
		})
	}
}

func TestHelloComesFirstAndOnce(t *testing.T) {
	seen := make(chan string, 3)
	client := dialled(t, server(t, func(s *stream) {
		seen <- string(s.hello)
		for _, payload := range s.requests(2) {
			seen <- string(payload)
			s.reply(granted)
			s.reply(granted)
		}
	}))
	client.Ask(background, []byte("a"))
	go client.Ask(background, []byte("b"))
	for _, due := range []string{"\x02", "a"} {
		if came := <-seen; came != due {
			t.Errorf("%q came where %q was due", came, due)
		}
	}
}

// However many are asked, in order; and where both directions are larger than the sockets hold.
func TestVerifyMany(t *testing.T) {
	// Refuses for the caveat whose number the token is.
	judges := func(s *stream) {
		for payload, isThere := s.request(); isThere; payload, isThere = s.request() {
			s.reply([]byte{codeUnsatisfied, payload[8], payload[9]})
		}
	}
	for name, size := range map[string]int{"small": 0, "large": 20_000} {
		t.Run(name, func(t *testing.T) {
			client := dialled(t, server(t, judges))
			checks := make([]Check, 3_000)
			for number := range checks {
				checks[number].Token = string([]byte{byte(number >> 8), byte(number)}) + strings.Repeat("a", size)
			}
			verdicts, err := client.VerifyMany(background, "bank", checks)
			if err != nil || len(verdicts) != len(checks) {
				t.Fatalf("%d verdicts, %v", len(verdicts), err)
			}
			for number, verdict := range verdicts {
				if verdict.Granted() || verdict.Caveat != number {
					t.Fatalf("verdict %d is of caveat %d", number, verdict.Caveat)
				}
			}
		})
	}
	if verdicts, err := dialled(t, server(t, judges)).VerifyMany(background, "bank", nil); err != nil || len(verdicts) != 0 {
		t.Errorf("no checks: %v, %v", verdicts, err)
	}
}

// The verdicts before one that can't be had are given with the error.
func TestVerifyManyUpToAnError(t *testing.T) {
	known := func(s *stream) {
		for range s.requests(300) {
			s.reply(granted)
		}
		for _, isThere := s.request(); isThere; _, isThere = s.request() {
			s.reply([]byte{codeUnknownKey})
		}
	}
	verdicts, err := dialled(t, server(t, known)).VerifyMany(background, "bank", make([]Check, 1_000))
	if len(verdicts) != 300 || !errors.Is(err, ErrUnknownKey) {
		t.Errorf("%d verdicts, %v", len(verdicts), err)
	}
	checks := make([]Check, 1_000)
	checks[600].Facts = make([]string, 256)
	verdicts, err = dialled(t, server(t, grants)).VerifyMany(background, "bank", checks)
	if len(verdicts) != 512 || !errors.Is(err, ErrBadRequest) {
		t.Errorf("%d verdicts, %v", len(verdicts), err)
	}
}

// An identifier that is given goes out as it is, and where none is 32 digits do that nobody else has.
func TestIdentifiers(t *testing.T) {
	mints := func(s *stream) {
		for payload, isThere := s.request(); isThere; payload, isThere = s.request() {
			identifier := payload[11 : len(payload)-1]
			token := append([]byte{codeToken, 2, 2, byte(len(identifier))}, identifier...)
			s.reply(append(append(token, 0, 0, 6, 32), make([]byte, 32)...))
		}
	}
	client := dialled(t, server(t, mints))
	identified := func(mint Mint) string {
		mint.Key, mint.Form = "bank", V2Binary
		made, err := client.Mint(background, mint)
		token, fault := Inspect(made)
		if err != nil || fault != nil {
			t.Fatal(err, fault)
		}
		return token.Identifier
	}
	seen := map[string]bool{}
	for range make([]struct{}, 100) {
		drawn := identified(Mint{})
		if content, err := hex.DecodeString(drawn); err != nil || len(content) != 16 || seen[drawn] {
			t.Errorf("%q was drawn", drawn)
		}
		seen[drawn] = true
	}
	if empty, given := identified(Mint{EmptyIdentifier: true}), identified(Mint{Identifier: "alice"}); empty != "" || given != "alice" {
		t.Errorf("%q and %q", empty, given)
	}
}

// What each number of a refusal comes to.
func TestRefusals(t *testing.T) {
	refuses := func(s *stream) {
		for payload, isThere := s.request(); isThere; payload, isThere = s.request() {
			content := payload[len(payload)-1:]
			if content[0] == codeUnsatisfied {
				content = []byte{codeUnsatisfied, 0, 5}
			}
			s.reply(content)
		}
	}
	client := dialled(t, server(t, refuses))
	for code, class := range map[int]error{16: ErrBadRequest, 17: ErrBadRequest, 18: ErrUnknownKey, 19: ErrBadToken,
		20: ErrBadToken, 21: ErrBadToken, 22: ErrBadToken, 25: nil, 26: ErrBadToken, 27: ErrNotAllowed} {
		_, err := client.Attenuate(background, "!", string([]byte{byte(code)}))
		var refusal *RefusedError
		if !errors.As(err, &refusal) || refusal.Code != code || class != nil && !errors.Is(err, class) {
			t.Errorf("an attenuate's %d is %v", code, err)
		}
		isVerdict := class == ErrBadToken
		verdict, err := client.Verify(background, "bank", "!", string([]byte{byte(code)}))
		if (err == nil) != isVerdict || verdict.Granted() || isVerdict && verdict.Code != code {
			t.Errorf("a verify's %d is %v, %v", code, verdict, err)
		}
	}
	for code, caveat := range map[byte]int{0: -1, 23: -1, 24: 5, 29: -1} {
		verdict, err := client.Verify(background, "bank", "!", string([]byte{code}))
		if err != nil || verdict.Granted() != (code == 0) || verdict.Caveat != caveat || verdict.Reason() == "" ||
			verdict.Revoked() != (code == 29) {
			t.Errorf("a verify's %d is %v, %v", code, verdict, err)
		}
	}
	if (Verdict{}).Granted() {
		t.Error("a verdict that nobody gave grants")
	}
}

// What the requests that are out come to where the server does what it must not, or leaves.
func TestFaultsOfTheServer(t *testing.T) {
	lies := func(size uint32) script {
		return func(s *stream) {
			s.requests(2)
			s.Write(append([]byte{byte(size >> 24), byte(size >> 16), byte(size >> 8), byte(size)}, make([]byte, 8)...))
		}
	}
	for name, one := range map[string]struct {
		script script
		words  string
	}{
		"turns":             {func(s *stream) { s.requests(2); s.Write(framedAt(1, granted)); s.Write(framedAt(0, granted)) }, "of place 1"},
		"leaves":            {leaves, "closed"},
		"leaves in a frame": {func(s *stream) { s.requests(2); s.Write(s.framed(granted)[:7]) }, "closed"},
		"too small":         {lies(8), "of place 0 and 8 bytes"},
		"too large":         {lies(0xffffffff), "4294967295 bytes"},
		"too many": {func(s *stream) {
			s.requests(1)
			s.Write(bytes.Join([][]byte{s.framed(granted), s.framed(granted), s.framed(granted)}, nil))
			s.request()
		}, "to no request"},
	} {
		t.Run(name, func(t *testing.T) {
			client := dialled(t, server(t, one.script))
			_, errs := atOnce(client, 2)
			for _, err := range errs {
				if err != nil && !errors.Is(err, ErrDisconnected) {
					t.Error(err)
				}
			}
			if name != "too many" && (errs[0] == nil || errs[1] == nil) {
				t.Error("a request was answered")
			}
		})
	}
}

// Without WithRetry nothing is sent twice, and with it no mint; a verify is sent once more, and no third time.
func TestRetry(t *testing.T) {
	verify := func(c *Client) error { _, err := c.Verify(background, "bank", "!"); return err }
	attenuate := func(c *Client) error { _, err := c.Attenuate(background, "!"); return err }
	mint := func(c *Client) error { _, err := c.Mint(background, Mint{Key: "bank"}); return err }
	many := func(c *Client) error { _, err := c.VerifyMany(background, "bank", make([]Check, 2_000)); return err }
	answers := func(s *stream) {
		for payload, isThere := s.request(); isThere; payload, isThere = s.request() {
			s.reply([]byte{map[byte]byte{1: codeToken, 2: codeToken, 3: codeGranted}[payload[0]]})
		}
	}
	leavesLater := func(s *stream) {
		for range s.requests(700) {
			s.reply(granted)
		}
	}
	for name, one := range map[string]struct {
		ask      func(*Client) error
		scripts  []script
		options  []Option
		isTold   bool
		requests int32
	}{
		"verify":               {verify, []script{leaves}, nil, false, 1},
		"verify, retry":        {verify, []script{leaves}, []Option{WithRetry()}, true, 2},
		"verify, two ends":     {verify, []script{leaves, leaves}, []Option{WithRetry()}, false, 2},
		"attenuate, retry":     {attenuate, []script{leaves}, []Option{WithRetry()}, true, 2},
		"mint, retry":          {mint, []script{leaves}, []Option{WithRetry()}, false, 1},
		"many, ends midway":    {many, []script{leavesLater}, []Option{WithRetry()}, true, 0},
		"many, without retry":  {many, []script{leavesLater}, nil, false, 0},
		"verify, another time": {func(c *Client) error { verify(c); return verify(c) }, []script{leaves}, nil, true, 2},
	} {
		t.Run(name, func(t *testing.T) {
			var requests atomic.Int32
			counted := func(of script) script { return func(s *stream) { requests.Add(1); of(s) } }
			var scripts []script
			for _, script := range append(one.scripts, answers) {
				scripts = append(scripts, counted(script))
			}
			// One connection, so that the scripts follow one another.
			err := one.ask(dialled(t, server(t, scripts...), append(one.options, WithConnections(1))...))
			if (err == nil) != one.isTold || err != nil && !errors.Is(err, ErrDisconnected) {
				t.Errorf("came to %v", err)
			}
			if one.requests != 0 && requests.Load() != one.requests {
				t.Errorf("was sent %d times", requests.Load())
			}
		})
	}
}

// Connections end at any moment: whoever is answered has its own reply, and each call ends.
func TestStorm(t *testing.T) {
	ends := func(s *stream) {
		for left := rand.Intn(60); left >= 0; left-- {
			payload, isThere := s.request()
			if !isThere {
				return
			}
			frame := s.framed(append([]byte{codeToken}, payload...))
			if rand.Intn(50) == 0 {
				s.Write(frame[:9])
				return
			}
			s.Write(frame)
		}
	}
	scripts := make([]script, 5_000)
	for number := range scripts {
		scripts[number] = ends
	}
	client, answered := dialled(t, server(t, scripts...)), 0
	for round := 0; round < 50; round++ {
		replies, errs := atOnce(client, 40)
		for number, came := range replies {
			switch {
			case errs[number] == nil && string(came) == "\x01"+fmt.Sprint(number):
				answered++
			case !errors.Is(errs[number], ErrDisconnected):
				t.Fatalf("request %d: %q, %v", number, came, errs[number])
			}
		}
	}
	if answered < 200 {
		t.Errorf("only %d were answered", answered)
	}
}

func TestConnectsAgain(t *testing.T) {
	once := func(s *stream) { s.request(); s.reply(granted) }
	client := dialled(t, server(t, once, once, grants))
	for left := 2; left >= 0; left-- {
		if verdict, err := client.Verify(background, "bank", "!"); err != nil || !verdict.Granted() {
			t.Error(verdict, err)
		}
		for left > 0 && !client.lines[0].current.Load().hasEnded() {
			time.Sleep(time.Millisecond)
		}
	}
}

// A call waits for a daemon that comes, and not longer than its time.
func TestNoDaemon(t *testing.T) {
	path := filepath.Join(t.TempDir(), "socket")
	begin := time.Now()
	_, err := Dial(background, path, WithTimeout(200*time.Millisecond))
	if took := time.Since(begin); !errors.Is(err, ErrDisconnected) || took > 3*time.Second ||
		!strings.Contains(err.Error(), "there is no connection to "+path) || !strings.Contains(err.Error(), "no such file") {
		t.Error(err, took)
	}
	if _, err := Dial(background, path, WithTimeout(0)); !errors.Is(err, ErrDisconnected) {
		t.Error(err)
	}
	ended, end := context.WithCancel(background)
	end()
	if _, err := Dial(ended, path); !errors.Is(err, context.Canceled) || !strings.Contains(err.Error(), path) {
		t.Error(err)
	}
	served := server(t, leaves)
	client := dialled(t, served, WithTimeout(300*time.Millisecond))
	client.path = path
	client.Verify(background, "bank", "!")
	begin = time.Now()
	_, err = client.Verify(background, "bank", "!")
	if took := time.Since(begin); !errors.Is(err, ErrDisconnected) || took > 3*time.Second {
		t.Error(err, took)
	}
	short, cancel := context.WithTimeout(background, 20*time.Millisecond)
	defer cancel()
	if _, err := client.Verify(short, "bank", "!"); !errors.Is(err, context.DeadlineExceeded) {
		t.Error(err)
	}
	go func() { time.Sleep(100 * time.Millisecond); serve(t, path, grants) }()
	client.timeout = 3 * time.Second
	if verdict, err := client.Verify(background, "bank", "!"); err != nil || !verdict.Granted() {
		t.Error(verdict, err)
	}
}

// Dial waits for a daemon that comes, and the calls behind it take that connection.
func TestDialWaits(t *testing.T) {
	path := filepath.Join(t.TempDir(), "socket")
	go func() { time.Sleep(200 * time.Millisecond); serve(t, path, grants) }()
	client := dialled(t, path)
	made := client.lines[0].current.Load()
	if verdict, err := client.Verify(background, "bank", "!"); err != nil || !verdict.Granted() {
		t.Error(verdict, err)
	}
	if client.lines[0].current.Load() != made {
		t.Error("another connection was made")
	}
}

// As past the daemon's limit on connections: few are made in a second.
func TestPausesGrow(t *testing.T) {
	var made atomic.Int32
	scripts := make([]script, 200)
	for number := range scripts {
		scripts[number] = func(*stream) { made.Add(1) }
	}
	client := dialled(t, server(t, scripts...), WithTimeout(500*time.Millisecond))
	for until := time.Now().Add(time.Second); time.Now().Before(until); {
		atOnce(client, 8)
	}
	if made.Load() > 15 {
		t.Errorf("%d connections were made", made.Load())
	}
}

// Who waits no longer leaves the order as it was.
func TestCancelled(t *testing.T) {
	late := func(s *stream) {
		for _, payload := range s.requests(2) {
			s.reply(append([]byte{codeToken}, payload...))
		}
	}
	short := func() (context.Context, context.CancelFunc) {
		return context.WithTimeout(background, 50*time.Millisecond)
	}
	for name, one := range map[string]struct {
		context func() (context.Context, context.CancelFunc)
		options []Option
	}{
		"by its context": {short, nil},
		"by the timeout": {func() (context.Context, context.CancelFunc) { return background, func() {} }, []Option{WithTimeout(50 * time.Millisecond)}},
	} {
		t.Run(name, func(t *testing.T) {
			client := dialled(t, server(t, late), one.options...)
			ctx, cancel := one.context()
			defer cancel()
			if _, err := client.Ask(ctx, []byte("first")); !errors.Is(err, context.DeadlineExceeded) {
				t.Error(err)
			}
			client.timeout = defaultTimeout
			if came, err := client.Ask(background, []byte("second")); err != nil || string(came) != "\x01second" {
				t.Errorf("%q, %v", came, err)
			}
		})
	}
}

// Calls that are out together end each in its own time, also where the first of them were
// answered, and where none was out for a while.
func TestEachInItsTime(t *testing.T) {
	const timeout = 500 * time.Millisecond
	answersThree := func(s *stream) {
		for range s.requests(3) {
			s.reply(granted)
		}
		s.requests(100)
	}
	client := dialled(t, server(t, answersThree), WithTimeout(timeout), WithConnections(1))
	for round := 0; round < 3; round++ {
		var all sync.WaitGroup
		for number := 0; number < 7; number++ {
			all.Add(1)
			go func(isAnswered bool) {
				defer all.Done()
				begin := time.Now()
				_, err := client.Ask(background, nil)
				if took := time.Since(begin); isAnswered != (err == nil) || !isAnswered && took < timeout {
					t.Errorf("took %v: %v", took, err)
				}
			}(round == 0 && number < 3)
			time.Sleep(timeout / 10)
		}
		all.Wait()
		time.Sleep(timeout / 2)
	}
}

func TestNoTimeout(t *testing.T) {
	client := dialled(t, server(t, echoes), WithTimeout(math.MaxInt64))
	if _, err := client.Ask(background, nil); err != nil {
		t.Error(err)
	}
}

// Many may take longer than the timeout, which is for the next verdicts.
func TestManyTakeLonger(t *testing.T) {
	slow := func(s *stream) {
		for number := 0; number < 10*runRequests; number++ {
			s.request()
			if number%runRequests == 0 {
				time.Sleep(100 * time.Millisecond)
			}
			s.reply(granted)
		}
	}
	client := dialled(t, server(t, slow), WithTimeout(600*time.Millisecond))
	if verdicts, err := client.VerifyMany(background, "bank", make([]Check, 10*runRequests)); err != nil {
		t.Error(len(verdicts), err)
	}
}

// A server that reads nothing: calls end in time all the same.
func TestFullSocket(t *testing.T) {
	client := dialled(t, server(t, func(*stream) { time.Sleep(2 * time.Second) }), WithTimeout(200*time.Millisecond))
	begin := time.Now()
	var all sync.WaitGroup
	for range [40]int{} {
		all.Add(1)
		go func() {
			defer all.Done()
			if _, err := client.Ask(background, make([]byte, 60_000)); !errors.Is(err, context.DeadlineExceeded) {
				t.Error(err)
			}
		}()
	}
	all.Wait()
	if took := time.Since(begin); took > 1900*time.Millisecond {
		t.Error(took)
	}
}

// A reply that still comes is given, though the next request can't be written any more.
func TestHalfClosed(t *testing.T) {
	deaf := func(s *stream) {
		first, _ := s.request()
		s.Conn.(interface{ CloseRead() error }).CloseRead()
		time.Sleep(100 * time.Millisecond)
		s.reply(append([]byte{codeToken}, first...))
	}
	client := dialled(t, server(t, deaf, echoes))
	first := make(chan string)
	go func() {
		came, _ := client.Ask(background, []byte("first"))
		first <- string(came)
	}()
	time.Sleep(50 * time.Millisecond)
	client.Ask(background, []byte("second"))
	if came := <-first; came != "\x01first" {
		t.Errorf("%q", came)
	}
}

// A client that waits takes no processor time.
func TestIdle(t *testing.T) {
	client := dialled(t, server(t, echoes))
	atOnce(client, 100)
	before := processorTime(t)
	time.Sleep(time.Second)
	if took := processorTime(t) - before; took > 100*time.Millisecond {
		t.Errorf("%v of a second", took)
	}
}

func processorTime(t *testing.T) time.Duration {
	var used syscall.Rusage
	if err := syscall.Getrusage(syscall.RUSAGE_SELF, &used); err != nil {
		t.Fatal(err)
	}
	return time.Duration(used.Utime.Nano() + used.Stime.Nano())
}

func TestClosed(t *testing.T) {
	client := dialled(t, server(t, func(s *stream) { s.requests(10) }, grants))
	waits := make(chan error)
	go func() { _, err := client.Ask(background, nil); waits <- err }()
	time.Sleep(20 * time.Millisecond)
	client.Close()
	_, err := client.Ask(background, nil)
	for _, err := range []error{<-waits, err} {
		if !errors.Is(err, ErrDisconnected) || !strings.Contains(err.Error(), "closed") {
			t.Error(err)
		}
	}
}
