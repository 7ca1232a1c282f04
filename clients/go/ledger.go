package macaroond

import (
	"context"
	"encoding/binary"
	"math"
	"sync"
	"sync/atomic"
	"time"
)

// batch is requests that went out together, and the replies that have come to them.
type batch struct {
	replies []reply
	// How many have come.
	come int
	err  error
	// Takes one word, once all have come or err says why they won't.
	done chan struct{}
	// Until when it waits for room, and for its replies too where isWatched says so.
	due       moment
	isWatched bool
	// Whether it has ended; the lock of its connection's ledger guards this.
	hasEnded bool
	// The place of the line that it went over, or the batch before it of which this is made.
	line int
}

func newBatch(count int, timeout time.Duration) *batch {
	return &batch{replies: make([]reply, count), done: make(chan struct{}, 1), due: in(timeout)}
}

// wait waits until the batch has ended, or its context.
func (b *batch) wait(ctx context.Context) error {
	ends := ctx.Done()
	if ends == nil {
		<-b.done
		return b.err
	}
	select {
	case <-b.done:
		return b.err
	case <-ends:
		return ctx.Err()
	}
}

// waitFor is wait, for so long at most.
func (b *batch) waitFor(ctx context.Context, timeout time.Duration) error {
	expiry := time.NewTimer(timeout)
	defer expiry.Stop()
	select {
	case <-b.done:
		return b.err
	case <-ctx.Done():
		return ctx.Err()
	case <-expiry.C:
		return errTimedOut
	}
}

// end ends a batch, unless it has ended.
func (b *batch) end(err error) {
	if !b.hasEnded {
		b.hasEnded, b.err = true, err
		b.done <- struct{}{}
	}
}

// single is a batch of one request, with the request's frame.
type single struct {
	batch
	frame []byte
	reply [1]reply
}

// Those that were answered, for further requests.
var singles = sync.Pool{New: func() any {
	made := &single{batch: batch{done: make(chan struct{}, 1), isWatched: true}}
	made.replies = made.reply[:]
	return made
}}

// take takes the reply of one that was answered, and leaves it to others.
func (s *single) take() reply {
	came := s.reply[0]
	s.reply[0] = reply{}
	s.come, s.hasEnded = 0, false
	singles.Put(s)
	return came
}

// ledger is the batches to which replies are due, in order.
type ledger struct {
	// Gives the batches that were sent since, for a list that is done with.
	more func(spare []*batch) []*batch
	// How many requests lack a reply, for those who choose a connection.
	out *atomic.Int64

	mu      sync.Mutex
	batches []*batch
	// How many of the batches have all their replies.
	answered int
	// Those of them that weren't ended yet.
	whole []*batch
	// The place of the next reply.
	place uint64
	// Whose token the last reply told that tells one.
	owner string
}

// take hands out the replies that are here whole, and tells how many bytes they have.
func (l *ledger) take(received []byte) (used int, err error) {
	l.mu.Lock()
	defer l.mu.Unlock()
	defer l.endWhole()
	for len(received)-used >= replyFront {
		size := binary.BigEndian.Uint32(received[used:])
		place := binary.BigEndian.Uint64(received[used+lengthOfSize:])
		if place != l.place || size < replyMin || size > replyMax {
			const words = "a reply of place %d and %d bytes came where that of place %d was due"
			return used, disconnected(words, place, size, l.place)
		}
		end := used + lengthOfSize + int(size)
		if end > len(received) {
			break
		}
		if !l.hand(received[used+replyFront : end]) {
			return used, disconnected("a reply came to no request")
		}
		used = end
	}
	return used, nil
}

// hand hands a reply to the first batch that lacks one, where there is one.
func (l *ledger) hand(payload []byte) bool {
	if l.answered == len(l.batches) {
		l.batches, l.answered = l.more(l.batches), 0
		if len(l.batches) == 0 {
			return false
		}
	}
	first := l.batches[l.answered]
	first.replies[first.come] = reply{payload[0], l.textOf(payload[0], payload[1:])}
	first.come++
	l.place++
	if first.come == len(first.replies) {
		l.batches[l.answered] = nil
		l.answered++
		l.whole = append(l.whole, first)
	}
	return true
}

// textOf gives the rest of a reply. Whose a token is takes no memory where the one before told
// the same; no token is kept so.
func (l *ledger) textOf(code byte, rest []byte) string {
	if code != codeGrantedTo {
		return string(rest)
	}
	if string(rest) != l.owner {
		l.owner = string(rest)
	}
	return l.owner
}

// endWhole ends the batches whose last reply was handed out. Who is woken finds that they
// are out no more.
func (l *ledger) endWhole() {
	count := 0
	for _, one := range l.whole {
		count += len(one.replies)
	}
	l.out.Add(-int64(count))
	for at, one := range l.whole {
		l.whole[at] = nil
		one.end(nil)
	}
	l.whole = l.whole[:0]
}

// open gives the batches that lack a reply, but for those that were sent since.
func (l *ledger) open() []*batch { return l.batches[l.answered:] }

// end tells all that wait that no reply will come.
func (l *ledger) end(fault error) {
	l.mu.Lock()
	defer l.mu.Unlock()
	for _, one := range append(l.open(), l.more(nil)...) {
		one.end(fault)
	}
	l.batches, l.answered = nil, 0
}

// expire ends the watched batches that are due, and gives when the next one is, or never.
func expire(batches []*batch) moment {
	now, next := in(0), never
	for _, one := range batches {
		switch {
		case !one.isWatched || one.hasEnded:
		case one.due <= now:
			one.end(errTimedOut)
		case one.due < next:
			next = one.due
		}
	}
	return next
}

// moment is a time, counted from when the process began.
type moment time.Duration

const never moment = math.MaxInt64

var began = time.Now()

// in gives the moment after so long a time.
func in(pause time.Duration) moment {
	at := moment(time.Since(began) + pause)
	if at < 0 && pause > 0 {
		return never
	}
	return at
}

// left tells how long it is until then.
func (m moment) left() time.Duration { return time.Duration(m) - time.Since(began) }
