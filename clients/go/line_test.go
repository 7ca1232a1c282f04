package macaroond

import (
	"bytes"
	"errors"
	"fmt"
	"strings"
	"sync"
	"sync/atomic"
	"testing"
	"time"
)

// house is a server that takes all requests, and answers none but probes until it is told to.
type house struct {
	path string
	// How many connections came, and how many have ended.
	came, ended atomic.Int32
	answers     chan struct{}
}

// newHouse lets so many connections go by the house's script, and further ones by the others.
func newHouse(t testing.TB, count int, others ...script) *house {
	made := &house{answers: make(chan struct{})}
	var scripts []script
	for len(scripts) < count {
		scripts = append(scripts, made.holds)
	}
	made.path = server(t, append(scripts, others...)...)
	return made
}

func (h *house) holds(s *stream) {
	h.came.Add(1)
	defer h.ended.Add(1)
	due := make(chan []byte, 10_000)
	defer close(due)
	go func() {
		<-h.answers
		for frame := range due {
			s.Write(frame)
		}
	}()
	for payload, isThere := s.request(); isThere; payload, isThere = s.request() {
		if isProbe(payload) {
			s.reply(granted)
		} else {
			due <- s.framed(append([]byte{codeToken}, payload...))
		}
	}
}

func isProbe(payload []byte) bool { return bytes.Equal(payload, probe[lengthOfSize:]) }

// crowd is calls of one client that wait at once.
type crowd struct {
	client *Client
	asked  int
	all    sync.WaitGroup
	// How many were answered, and how many failed since their connection ended.
	answered, failed atomic.Int32
}

// newCrowd has a client that waits for long, since a machine may be busy.
func newCrowd(t *testing.T, path string, options ...Option) *crowd {
	return &crowd{client: dialled(t, path, append(options, WithTimeout(2*time.Minute))...)}
}

// join asks by so many further calls, and waits for none.
func (c *crowd) join(t *testing.T, calls int) {
	for ; calls > 0; calls-- {
		c.asked++
		c.all.Add(1)
		go func(number int) {
			defer c.all.Done()
			came, err := c.client.Ask(background, []byte(fmt.Sprint(number)))
			switch {
			case err == nil && string(came) == "\x01"+fmt.Sprint(number):
				c.answered.Add(1)
			case errors.Is(err, ErrDisconnected):
				c.failed.Add(1)
			default:
				t.Errorf("request %d: %q, %v", number, came, err)
			}
		}(c.asked)
	}
}

// joinUntil asks more and more, until this holds.
func (c *crowd) joinUntil(t *testing.T, holds func() bool) {
	t.Helper()
	for left := 400; !holds(); left-- {
		if left == 0 {
			t.Fatalf("nothing came of %d calls", c.asked)
		}
		c.join(t, 5)
		time.Sleep(5 * time.Millisecond)
	}
}

// live tells how many connections a client has.
func live(client *Client) (count int) {
	for _, line := range client.lines {
		if line.live() != nil {
			count++
		}
	}
	return count
}

// eventually waits until this holds.
func eventually(t *testing.T, what string, holds func() bool) {
	t.Helper()
	for until := time.Now().Add(20 * time.Second); !holds(); time.Sleep(time.Millisecond) {
		if time.Now().After(until) {
			t.Fatalf("%s: it never came to that", what)
		}
	}
}

func TestOneConnectionWhileFewAreOut(t *testing.T) {
	house := newHouse(t, 2)
	close(house.answers)
	client := dialled(t, house.path)
	for round := 0; round < 200; round++ {
		atOnce(client, 1)
	}
	for round := 0; round < 50; round++ {
		atOnce(client, fewOut)
	}
	if house.came.Load() != 1 {
		t.Errorf("%d connections were made", house.came.Load())
	}
}

// Another connection is made as each has many requests out, and up to the limit alone.
func TestMoreConnections(t *testing.T) {
	for name, one := range map[string]struct {
		options []Option
		most    int
	}{
		"left out": {nil, 6},
		"one":      {[]Option{WithConnections(1)}, 1},
		"none":     {[]Option{WithConnections(0)}, 1},
		"seven":    {[]Option{WithConnections(7)}, 7},
	} {
		t.Run(name, func(t *testing.T) {
			house := newHouse(t, 20)
			crowd := newCrowd(t, house.path, one.options...)
			crowd.join(t, fewOut)
			time.Sleep(20 * time.Millisecond)
			if live(crowd.client) != 1 {
				t.Errorf("%d connections for %d requests", live(crowd.client), fewOut)
			}
			if one.most > 1 {
				crowd.join(t, 1)
				eventually(t, "a second connection", func() bool { return live(crowd.client) > 1 })
			}
			crowd.joinUntil(t, func() bool { return live(crowd.client) == one.most })
			if few := one.most * fewOut; crowd.asked < few-fewOut {
				t.Errorf("%d connections for %d requests", one.most, crowd.asked)
			}
			crowd.join(t, 200)
			time.Sleep(20 * time.Millisecond)
			close(house.answers)
			crowd.all.Wait()
			if int(crowd.answered.Load()) != crowd.asked || int(house.came.Load()) != one.most {
				t.Errorf("%d of %d were answered over %d connections", crowd.answered.Load(), crowd.asked, house.came.Load())
			}
		})
	}
}

// The calls that wait spread: no connection has many more out than another.
func TestFewestOut(t *testing.T) {
	house := newHouse(t, defaultConnections)
	crowd := newCrowd(t, house.path)
	crowd.joinUntil(t, func() bool { return live(crowd.client) == defaultConnections })
	crowd.join(t, 4*crowd.asked)
	eventually(t, "all are out", func() bool { return allOut(crowd) })
	due := crowd.asked / defaultConnections
	for _, line := range crowd.client.lines {
		// As many goroutines as run at a time may choose the same.
		if out := int(line.current.Load().out.Load()); out < due-20 || out > due+20 {
			t.Errorf("%d of %d are out", out, crowd.asked)
		}
	}
	close(house.answers)
	crowd.all.Wait()
	for _, line := range crowd.client.lines {
		if out := line.current.Load().out.Load(); out != 0 {
			t.Errorf("%d are out where all are answered", out)
		}
	}
}

// A further connection that isn't answered, as at the daemon's limit of connections, loses
// no call, and is tried for ever less often.
func TestRefusedConnection(t *testing.T) {
	for name, refuses := range map[string]script{
		"closes at once": func(s *stream) {},
		"closes later":   func(s *stream) { s.request(); time.Sleep(5 * time.Millisecond) },
		"is silent":      func(s *stream) { s.requests(2) },
		"lies":           func(s *stream) { s.request(); s.Write(framedAt(1, granted)); s.request() },
	} {
		refuses := refuses
		t.Run(name, func(t *testing.T) {
			var tried atomic.Int32
			scripts := []script{echoes}
			for len(scripts) < 200 {
				scripts = append(scripts, func(s *stream) { tried.Add(1); refuses(s) })
			}
			client := dialled(t, server(t, scripts...))
			for until := time.Now().Add(500 * time.Millisecond); time.Now().Before(until); {
				crowd := &crowd{client: client}
				crowd.join(t, 100)
				crowd.all.Wait()
				if crowd.failed.Load() != 0 {
					t.Fatalf("%d calls were lost", crowd.failed.Load())
				}
			}
			if tried.Load() == 0 || tried.Load() > 10 || live(client) != 1 {
				t.Errorf("%d connections, and further ones were tried %d times", live(client), tried.Load())
			}
		})
	}
}

// Calls go on over further connections once the first has ended, and it is made anew.
func TestEndOfOne(t *testing.T) {
	for name, place := range map[string]int{"the first": 0, "another": 1} {
		t.Run(name, func(t *testing.T) {
			house := newHouse(t, 5)
			crowd := newCrowd(t, house.path)
			crowd.joinUntil(t, func() bool { return live(crowd.client) == 3 })
			ended := crowd.client.lines[place].current.Load()
			eventually(t, "all are out", func() bool { return ended.out.Load() > 0 && allOut(crowd) })
			out := ended.out.Load()
			ended.socket.Close()
			eventually(t, "the end is seen", func() bool { return int64(crowd.failed.Load()) == out })
			crowd.joinUntil(t, func() bool { return crowd.client.lines[place].live() != nil })
			close(house.answers)
			crowd.all.Wait()
			if int64(crowd.failed.Load()) != out || int(crowd.answered.Load()) != crowd.asked-int(out) {
				t.Errorf("%d of %d failed, and %d were answered", crowd.failed.Load(), crowd.asked, crowd.answered.Load())
			}
		})
	}
}

// allOut tells whether every call of the crowd was sent.
func allOut(crowd *crowd) bool {
	out := 0
	for _, line := range crowd.client.lines {
		if current := line.current.Load(); current != nil {
			out += int(current.out.Load())
		}
	}
	return out == crowd.asked
}

// Close ends every connection, and one that is being opened, with the calls that wait.
func TestCloseEndsAll(t *testing.T) {
	var probed, ended atomic.Int32
	silent := func(s *stream) { s.request(); probed.Add(1); s.request(); ended.Add(1) }
	house := newHouse(t, 3, silent)
	crowd := newCrowd(t, house.path)
	crowd.joinUntil(t, func() bool { return live(crowd.client) == 3 && probed.Load() == 1 })
	begin := time.Now()
	crowd.client.Close()
	crowd.all.Wait()
	eventually(t, "all connections end", func() bool { return house.ended.Load() == 3 && ended.Load() == 1 })
	if took := time.Since(begin); took > time.Minute || int(crowd.failed.Load()) != crowd.asked {
		t.Errorf("%d of %d calls ended, within %v", crowd.failed.Load(), crowd.asked, took)
	}
	if _, err := crowd.client.Ask(background, nil); !errors.Is(err, ErrDisconnected) || !strings.Contains(err.Error(), "closed") {
		t.Error(err)
	}
}

// Runs of checks go over several connections, and the verdicts come in order.
func TestVerifyManyOverSeveral(t *testing.T) {
	var judged [defaultConnections]atomic.Int32
	var next atomic.Int32
	judges := func(s *stream) {
		place := next.Add(1) - 1
		for payload, isThere := s.request(); isThere; payload, isThere = s.request() {
			if isProbe(payload) {
				s.reply(granted)
				continue
			}
			judged[place].Add(1)
			s.reply([]byte{codeUnsatisfied, payload[8], payload[9]})
		}
	}
	client := dialled(t, server(t, judges, judges, judges, judges, judges, judges))
	checks := make([]Check, 20_000)
	for number := range checks {
		checks[number].Token = string([]byte{byte(number >> 8), byte(number)})
	}
	eventually(t, "all connections judge", func() bool {
		verdicts, err := client.VerifyMany(background, "bank", checks)
		if err != nil || len(verdicts) != len(checks) {
			t.Fatalf("%d verdicts, %v", len(verdicts), err)
		}
		for number, verdict := range verdicts {
			if verdict.Caveat != number {
				t.Fatalf("verdict %d is of caveat %d", number, verdict.Caveat)
			}
		}
		for place := range judged {
			if judged[place].Load() == 0 {
				return false
			}
		}
		return true
	})
}
