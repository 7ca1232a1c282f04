package macaroond

import (
	"context"
	"errors"
	"math"
	"sync/atomic"
	"time"
)

const (
	defaultConnections = 6
	// Another connection is opened where each that is there has so many requests out. A batch
	// goes over the line of the one before it while fewer are out there.
	fewOut = 11
)

// What a connection is asked before calls depend on it: an attenuate that adds nothing
// to a token of nobody's. It asks for no key, and every socket answers it.
var probe = frameOf(attenuation{
	form:  V2Binary,
	token: "\x02\x02\x05probe\x00\x00\x06\x20" + string(make([]byte, signatureSize)),
}.appendPayload)

// line is a place for a connection, which is made, and made anew once it has ended.
type line struct {
	current atomic.Pointer[connection]
	// Has one word, which is taken by who connects.
	dialling chan struct{}
	// Used by who connects: when to try, and the connection whose end was noted last.
	backoff backoff
	noted   *connection
}

func newLines(count int) []*line {
	lines := make([]*line, count)
	for place := range lines {
		lines[place] = &line{dialling: make(chan struct{}, 1)}
	}
	return lines
}

// live gives the connection, where there is one that takes requests.
func (l *line) live() *connection {
	current := l.current.Load()
	if current == nil || current.hasEnded() {
		return nil
	}
	return current
}

// hold lets one goroutine at a time connect; it tells whether the context lasted.
func (l *line) hold(ctx context.Context) bool {
	select {
	case l.dialling <- struct{}{}:
		return true
	case <-ctx.Done():
		return false
	}
}

func (l *line) release() { <-l.dialling }

// noteEnd notes, once, whether the connection that has ended was of use.
func (l *line) noteEnd() {
	ended := l.current.Load()
	switch {
	case l.noted == ended: // As long as there was none, too.
	case ended.wasAnswered.Load():
		l.backoff.succeeded()
	default:
		l.backoff.failed()
	}
	l.noted = ended
}

// connected gives the connection of the batch's line while few requests are out there: so
// goroutines that run on different processors seldom write to the same memory. Else it gives
// the one with the fewest out, which is made where there is none, and another one is opened
// where all have much to do.
func (c *Client) connected(ctx context.Context, asked *batch) (*connection, error) {
	usual := c.lines[asked.line%len(c.lines)].live()
	if usual != nil && usual.out.Load() < fewOut {
		return usual, nil
	}
	least, place, free := c.leastBusy()
	if least == nil {
		return c.reconnected(ctx)
	}
	if free != nil && least.out.Load() >= fewOut {
		c.widen(free)
	}
	asked.line = place
	return least, nil
}

// leastBusy gives the connection with the fewest requests out, with the place of its line, and
// a line that has none, each where there is one.
func (c *Client) leastBusy() (least *connection, place int, free *line) {
	fewest := int64(math.MaxInt64)
	for at, line := range c.lines {
		current := line.live()
		if current == nil {
			if free == nil {
				free = line
			}
		} else if out := current.out.Load(); out < fewest {
			least, place, fewest = current, at, out
		}
	}
	return least, place, free
}

// reconnected gives a connection in the first line.
func (c *Client) reconnected(ctx context.Context) (*connection, error) {
	inTime, cancel := context.WithTimeout(ctx, c.timeout)
	defer cancel()
	made, err := c.dialled(inTime, c.lines[0])
	if err != nil && ctx.Err() != nil {
		return nil, &unconnectedError{c.path, ctx.Err()}
	}
	return made, err
}

// dialled gives a line's connection, for which one goroutine at a time tries until its
// context ends.
func (c *Client) dialled(ctx context.Context, l *line) (*connection, error) {
	if !l.hold(ctx) {
		return nil, disconnected("there is no connection to %s", c.path)
	}
	defer l.release()
	if current := l.live(); current != nil {
		return current, nil
	}
	l.noteEnd()
	reason := errors.New("no time was left for a try")
	if ended := l.current.Load(); ended != nil {
		reason = ended.fault
	}
	for !c.isClosed() {
		if !paused(ctx, l.backoff.left()) {
			return nil, disconnected("there is no connection to %s: %v", c.path, reason)
		}
		made, err := connect(ctx, c.path)
		if err == nil {
			return c.taken(l, made), nil
		}
		reason = err
		l.backoff.failed()
	}
	return nil, disconnected("the client was closed")
}

// taken takes a connection into use, but for a client that was closed meanwhile.
func (c *Client) taken(l *line, made *connection) *connection {
	l.current.Store(made)
	if c.isClosed() {
		made.close()
	}
	return made
}

// widen opens another connection, unless one is being opened or has just failed. No call
// waits for it.
func (c *Client) widen(free *line) {
	if c.isWidening.Load() || !c.isWidening.CompareAndSwap(false, true) {
		return
	}
	go func() {
		defer c.isWidening.Store(false)
		paused(c.lifetime, c.open(free))
	}()
}

// open opens a line's connection, which takes requests once it was answered one, and
// tells how long to open none.
func (c *Client) open(l *line) time.Duration {
	ctx, cancel := context.WithTimeout(c.lifetime, c.timeout)
	defer cancel()
	if !l.hold(ctx) {
		return 0
	}
	defer l.release()
	if l.live() != nil {
		return 0
	}
	made, err := probed(ctx, c.path)
	if err != nil {
		l.backoff.failed()
		return l.backoff.left()
	}
	l.backoff.succeeded()
	c.taken(l, made)
	return 0
}

// probed gives a connection that was answered.
func probed(ctx context.Context, path string) (*connection, error) {
	made, err := connect(ctx, path)
	if err != nil {
		return nil, err
	}
	asked := newBatch(1, 0)
	if err = made.send(ctx, probe, asked); err == nil {
		err = asked.wait(ctx)
	}
	if err != nil {
		made.close()
		return nil, err
	}
	return made, nil
}

// paused waits so long, and tells whether the context lasted.
func paused(ctx context.Context, pause time.Duration) bool {
	timer := time.NewTimer(pause)
	defer timer.Stop()
	select {
	case <-timer.C:
		return ctx.Err() == nil
	case <-ctx.Done():
		return false
	}
}
