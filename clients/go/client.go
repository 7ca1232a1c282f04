package macaroond

import (
	"context"
	"crypto/rand"
	"encoding/hex"
	"errors"
	"fmt"
	"sync"
	"sync/atomic"
	"time"
)

const (
	defaultTimeout = 5 * time.Second
	// How many requests, and about how many bytes, go out together where many are asked;
	// and how many such runs are out at most.
	runRequests = 256
	runBytes    = 65_536
	runsOut     = 8
)

var errTimedOut = fmt.Errorf("macaroond: no reply came in time: %w", context.DeadlineExceeded)

// Client is a client of the daemon at a socket, safe for any number of goroutines.
type Client struct {
	path    string
	timeout time.Duration
	retry   bool
	warn    func(string)

	// Its first line connects anew where there is no connection, the others where all have much
	// to do.
	lines      []*line
	isWidening atomic.Bool
	// Ends as the client is closed.
	lifetime context.Context
	end      context.CancelFunc
}

// Option is a wish about a client.
type Option func(*Client)

// WithTimeout says how long a call waits at most, for a connection and for its
// reply: 5 seconds where it isn't said.
func WithTimeout(timeout time.Duration) Option {
	return func(c *Client) { c.timeout = timeout }
}

// WithRetry says that a verify and an attenuate whose connection ended are sent
// once more.
func WithRetry() Option {
	return func(c *Client) { c.retry = true }
}

// WithConnections says how many connections there are at most: 6 where it isn't said, and
// never less than 1. Another one is opened where each that is there has 11 requests out, and
// stays.
func WithConnections(most int) Option {
	return func(c *Client) {
		if most < 1 {
			most = 1
		}
		c.lines = newLines(most)
	}
}

// Dial connects to the daemon at the socket of this path. It waits for the daemon as a call
// does: where none has come up by the end of WithTimeout it is an ErrDisconnected.
func Dial(ctx context.Context, path string, options ...Option) (*Client, error) {
	client := &Client{path: path, timeout: defaultTimeout, lines: newLines(defaultConnections)}
	for _, option := range options {
		option(client)
	}
	client.lifetime, client.end = context.WithCancel(context.Background())
	if _, err := client.reconnected(ctx); err != nil {
		client.end()
		return nil, err
	}
	return client, nil
}

// Close ends the connections, and with them all calls that wait.
func (c *Client) Close() error {
	c.end()
	for _, line := range c.lines {
		if current := line.current.Load(); current != nil {
			current.close()
		}
	}
	return nil
}

func (c *Client) isClosed() bool { return c.lifetime.Err() != nil }

// Mint gives a new token.
func (c *Client) Mint(ctx context.Context, mint Mint) (string, error) {
	if mint.Identifier == "" && !mint.EmptyIdentifier {
		drawn, err := drawIdentifier()
		if err != nil {
			return "", err
		}
		mint.Identifier = drawn
	}
	c.warnOf(mint.Caveats)
	return c.token(ctx, mint.appendPayload, false)
}

// Attenuate gives the token with these caveats behind its own, in its own form.
func (c *Client) Attenuate(ctx context.Context, token string, caveats ...string) (string, error) {
	return c.AttenuateTo(ctx, formOf(token), token, caveats...)
}

// AttenuateTo gives the token with these caveats behind its own, in this form.
func (c *Client) AttenuateTo(
	ctx context.Context, form Form, token string, caveats ...string,
) (string, error) {
	c.warnOf(caveats)
	return c.token(ctx, attenuation{form, token, caveats}.appendPayload, true)
}

// Verify tells whether the daemon's key of this name grants the token now, given
// these facts.
func (c *Client) Verify(ctx context.Context, key, token string, facts ...string) (Verdict, error) {
	return c.VerifyCheck(ctx, key, Check{Token: token, Facts: facts})
}

// VerifyCheck is Verify, at a moment that may be told.
func (c *Client) VerifyCheck(ctx context.Context, key string, check Check) (Verdict, error) {
	asked := verification{key, check}
	came, err := c.ask(ctx, asked.appendPayload, true)
	if err != nil {
		return Verdict{}, err
	}
	return verdictOf(came, check.Token)
}

// VerifyMany gives the verdict on each check, in order. The checks go out some
// hundreds at a time, without waiting; the timeout is for the next of them to be
// answered, and not for all. Where a verdict can't be had, those before it are given
// with the error.
func (c *Client) VerifyMany(ctx context.Context, key string, checks []Check) ([]Verdict, error) {
	verdicts := make([]Verdict, 0, len(checks))
	var out []*run
	var unsent error
	for len(checks) > 0 || len(out) > 0 {
		if len(checks) > 0 && len(out) < runsOut {
			var sent *run
			if sent, unsent = c.sendRun(ctx, key, checks); unsent != nil {
				checks = nil
				continue
			}
			out, checks = append(out, sent), checks[len(sent.checks):]
			continue
		}
		var err error
		if verdicts, err = c.appendVerdicts(ctx, verdicts, out[0]); err != nil {
			return verdicts, err
		}
		out = out[1:]
	}
	return verdicts, unsent
}

// Ask gives the reply's payload to any request's payload (docs/FORMATS.md); it is
// never sent twice.
func (c *Client) Ask(ctx context.Context, payload []byte) ([]byte, error) {
	came, err := c.ask(ctx, raw(payload).appendPayload, false)
	if err != nil {
		return nil, err
	}
	return append([]byte{came.code}, came.rest...), nil
}

// drawIdentifier gives 128 random bits in hexadecimal.
func drawIdentifier() (string, error) {
	drawn := make([]byte, 16)
	if _, err := rand.Read(drawn); err != nil {
		return "", fmt.Errorf("macaroond: there are no random bytes: %w", err)
	}
	return hex.EncodeToString(drawn), nil
}

func (c *Client) token(ctx context.Context, asked payload, mayRepeat bool) (string, error) {
	came, err := c.ask(ctx, asked, mayRepeat)
	if err != nil {
		return "", err
	}
	if came.code != codeToken {
		return "", refused(int(came.code))
	}
	return came.rest, nil
}

// ask gives the reply to one request, and sends it once more where that is wished and may be.
func (c *Client) ask(ctx context.Context, asked payload, mayRepeat bool) (reply, error) {
	sent := singles.Get().(*single)
	framed, err := appendFrame(sent.frame[:0], asked)
	if err != nil {
		singles.Put(sent)
		return reply{}, err
	}
	sent.frame = framed
	came, err := c.exchange(ctx, sent)
	if mayRepeat && c.isToRepeat(err) {
		again := singles.Get().(*single)
		again.frame = append(again.frame[:0], framed...)
		came, err = c.exchange(ctx, again)
	}
	return came, err
}

// exchange sends a request, and gives its reply. The single is the caller's no more.
func (c *Client) exchange(ctx context.Context, sent *single) (reply, error) {
	sent.due = in(c.timeout)
	err := c.send(ctx, sent.frame, &sent.batch)
	if err == nil {
		err = sent.wait(ctx)
	}
	if err != nil {
		return reply{}, err
	}
	return sent.take(), nil
}

// isToRepeat tells whether what came to this is sent once more.
func (c *Client) isToRepeat(err error) bool {
	return c.retry && errors.Is(err, ErrDisconnected) && !c.isClosed()
}

// run is checks that went out together.
type run struct {
	key    string
	checks []Check
	*batch
}

var frames = sync.Pool{New: func() any { return new([]byte) }}

// sendRun sends as many of the checks as go out together.
func (c *Client) sendRun(ctx context.Context, key string, checks []Check) (*run, error) {
	kept := frames.Get().(*[]byte)
	defer frames.Put(kept)
	content, count := (*kept)[:0], 0
	for count < len(checks) && count < runRequests && len(content) < runBytes {
		var err error
		asked := verification{key, checks[count]}
		if content, err = appendFrame(content, asked.appendPayload); err != nil {
			return nil, fmt.Errorf("check %d of a run: %w", count, err)
		}
		count++
	}
	*kept = content[:0]
	sent := newBatch(count, c.timeout)
	return &run{key, checks[:count], sent}, c.send(ctx, content, sent)
}

// appendVerdicts appends a run's verdicts, or, where it may be, those of the run sent once more.
func (c *Client) appendVerdicts(
	ctx context.Context, verdicts []Verdict, sent *run,
) ([]Verdict, error) {
	// Its time begins once those before it are answered.
	err := sent.waitFor(ctx, c.timeout)
	if c.isToRepeat(err) {
		if sent, err = c.sendRun(ctx, sent.key, sent.checks); err == nil {
			err = sent.waitFor(ctx, c.timeout)
		}
	}
	if err != nil {
		return verdicts, err
	}
	for at, came := range sent.replies {
		verdict, err := verdictOf(came, sent.checks[at].Token)
		if err != nil {
			return verdicts, err
		}
		verdicts = append(verdicts, verdict)
	}
	return verdicts, nil
}

// send sends the frames of a batch, over a new connection where there is none.
func (c *Client) send(ctx context.Context, frames []byte, sent *batch) error {
	for {
		connection, err := c.connected(ctx, sent)
		if err == nil {
			err = connection.send(ctx, frames, sent)
		}
		if err != errNotSent {
			return err
		}
	}
}
