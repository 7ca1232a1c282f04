package macaroond

import (
	"context"
	"errors"
	"io"
	"net"
	"runtime"
	"sync"
	"sync/atomic"
	"time"
)

const (
	readSize = 262_144
	// Who asks waits while more bytes are unsent.
	unsentMax = 1_048_576
)

// errNotSent tells that the connection had ended before anything of a request was sent.
var errNotSent = errors.New("macaroond: the connection had ended")

// connection is a connection from the hello to its end. One goroutine writes, and
// gathers what is waiting into one write; another reads.
type connection struct {
	socket      net.Conn
	wake        chan struct{}
	wasAnswered atomic.Bool
	// How many requests lack a reply, with those that wait to be sent.
	out atomic.Int64
	// Whether there is a fault.
	ended atomic.Bool
	owed  ledger

	// Is taken while owed's lock is held, where both are.
	mu     sync.Mutex
	unsent []byte
	// Whether the writer was woken for what is unsent.
	isRung bool
	// The batches whose requests were put behind one another into unsent, but for those
	// that owed has taken.
	waiting []*batch
	// Goes off at nextDue, when the first watched batch is due.
	watch   *time.Timer
	nextDue moment
	// Once it says why, nothing more is sent; replies may still come.
	fault error
	// Closed once there is room in unsent, where somebody waits for that.
	room chan struct{}
}

func connect(ctx context.Context, path string) (*connection, error) {
	var dialer net.Dialer
	socket, err := dialer.DialContext(ctx, "unix", path)
	if err != nil {
		return nil, err
	}
	made := &connection{
		socket: socket, wake: make(chan struct{}, 1), unsent: []byte{hello}, nextDue: never,
	}
	made.owed.more, made.owed.out = made.takeWaiting, &made.out
	go made.write()
	go made.read()
	return made, nil
}

// send sends a batch's frames, or nothing of them where it gives an error.
func (c *connection) send(ctx context.Context, frames []byte, asked *batch) error {
	count := int64(len(asked.replies))
	c.out.Add(count)
	isFirst, err := c.put(ctx, frames, asked)
	if err != nil {
		c.out.Add(-count)
	} else if isFirst {
		c.ring()
	}
	return err
}

// put puts a batch's frames behind those that wait to be written, and tells whether the
// writer is to be woken for them.
func (c *connection) put(ctx context.Context, frames []byte, asked *batch) (bool, error) {
	c.mu.Lock()
	defer c.mu.Unlock()
	for len(c.unsent) > unsentMax && c.fault == nil {
		if err := c.waitForRoom(ctx, asked.due.left()); err != nil {
			return false, err
		}
	}
	if c.fault != nil {
		return false, errNotSent
	}
	c.unsent = append(c.unsent, frames...)
	c.waiting = append(c.waiting, asked)
	if asked.isWatched && asked.due < c.nextDue {
		c.watchFor(asked.due)
	}
	isFirst := !c.isRung
	c.isRung = true
	return isFirst, nil
}

// ring wakes the writer.
func (c *connection) ring() {
	select {
	case c.wake <- struct{}{}:
	default:
	}
}

// waitForRoom waits for so long at most, and lets go of the lock meanwhile.
func (c *connection) waitForRoom(ctx context.Context, timeout time.Duration) error {
	if c.room == nil {
		c.room = make(chan struct{})
	}
	room := c.room
	c.mu.Unlock()
	defer c.mu.Lock()
	expiry := time.NewTimer(timeout)
	defer expiry.Stop()
	select {
	case <-room:
		return nil
	case <-ctx.Done():
		return ctx.Err()
	case <-expiry.C:
		return errTimedOut
	}
}

// write writes what is unsent, until nothing more is to be sent.
func (c *connection) write() {
	var spare []byte
	for range c.wake {
		// Whoever is ready to ask does so first.
		runtime.Gosched()
		for {
			taken, isLast := c.takeUnsent(spare)
			if isLast {
				return
			}
			if taken == nil {
				break
			}
			if _, err := c.socket.Write(taken); err != nil {
				c.sendNoMore(disconnected("%v", err))
				return
			}
			spare = taken[:0]
		}
	}
}

// takeUnsent gives what is unsent, if anything, for an empty buffer, which is the
// caller's no more; and it tells whether there will be nothing from now on.
func (c *connection) takeUnsent(spare []byte) (taken []byte, isLast bool) {
	c.mu.Lock()
	defer c.mu.Unlock()
	if c.fault != nil || len(c.unsent) == 0 {
		return nil, c.fault != nil
	}
	taken, c.unsent, c.isRung = c.unsent, spare, false
	c.giveRoom()
	return taken, false
}

func (c *connection) giveRoom() {
	if c.room != nil {
		close(c.room)
		c.room = nil
	}
}

// sendNoMore tells from now on who asks to take another connection. An earlier fault stays.
func (c *connection) sendNoMore(fault error) error {
	c.mu.Lock()
	defer c.mu.Unlock()
	if c.fault == nil {
		c.fault = fault
		c.ended.Store(true)
	}
	c.unsent = nil
	c.giveRoom()
	c.ring()
	return c.fault
}

// hasEnded tells whether nothing more can be sent.
func (c *connection) hasEnded() bool { return c.ended.Load() }

// close ends the connection; the reader tells all who wait.
func (c *connection) close() {
	c.sendNoMore(disconnected("the client was closed"))
	c.socket.Close()
}

// read hands each reply to the first request that has none, up to the end.
func (c *connection) read() {
	fault := c.readReplies()
	if errors.Is(fault, io.EOF) {
		fault = disconnected("the daemon closed the connection")
	} else if !errors.Is(fault, ErrDisconnected) {
		fault = disconnected("%v", fault)
	}
	fault = c.sendNoMore(fault)
	c.socket.Close()
	c.owed.end(fault)
	c.endWatch()
}

func (c *connection) readReplies() error {
	buffer := make([]byte, readSize)
	end := 0
	for {
		// Whoever was just answered may ask again first: what comes meanwhile is one read.
		runtime.Gosched()
		count, err := c.socket.Read(buffer[end:])
		if err != nil {
			return err
		}
		end += count
		used, err := c.owed.take(buffer[:end])
		if err != nil {
			return err
		}
		if used > 0 {
			c.wasAnswered.Store(true)
		}
		end = copy(buffer, buffer[used:end])
	}
}

// takeWaiting gives the batches that wait, for a list that is done with.
func (c *connection) takeWaiting(spare []*batch) []*batch {
	c.mu.Lock()
	defer c.mu.Unlock()
	taken := c.waiting
	c.waiting = spare[:0]
	return taken
}

// expire ends the batches that are due.
func (c *connection) expire() {
	c.owed.mu.Lock()
	defer c.owed.mu.Unlock()
	c.mu.Lock()
	defer c.mu.Unlock()
	next := expire(c.owed.open())
	if other := expire(c.waiting); other < next {
		next = other
	}
	c.watchFor(next)
}

func (c *connection) endWatch() {
	c.mu.Lock()
	defer c.mu.Unlock()
	if c.watch != nil {
		c.watch.Stop()
	}
}

// watchFor has the batches looked at once one is due.
func (c *connection) watchFor(due moment) {
	c.nextDue = due
	switch {
	case due == never:
	case c.watch == nil:
		c.watch = time.AfterFunc(due.left(), c.expire)
	default:
		c.watch.Reset(due.left())
	}
}
