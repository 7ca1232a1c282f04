package macaroond

import (
	"context"
	"errors"
	"sync"
	"time"
)

// After so many failures in a row the daemon is taken to be away.
const failuresInARow = 3

// breaker tells whether to ask the daemon. After three failures in a row it says no for a
// pause, and yes to one call behind it; others wait for what comes of that call, or for its
// patience. A pause follows each failure, longer than the last one and of two seconds at most;
// the first success ends it.
type breaker struct {
	patience time.Duration
	clock    func() time.Time

	lock       sync.Mutex
	failures   int
	triedUntil time.Time
	backoff    backoff
}

func newBreaker(patience time.Duration) *breaker {
	return &breaker{patience: patience, clock: time.Now}
}

// allows tells whether a call may be made now; what comes of it is told by note.
func (b *breaker) allows() bool {
	b.lock.Lock()
	defer b.lock.Unlock()
	if b.failures < failuresInARow {
		return true
	}
	now := b.clock()
	if now.Before(b.triedUntil) || now.Before(b.backoff.until) {
		return false
	}
	b.triedUntil = now.Add(b.patience)
	return true
}

// note notes what a call says of the daemon: that it gives no replies, or that it does. A
// request that can't be told was never sent, and one whose asker has left says nothing.
func (b *breaker) note(err error, asker context.Context) {
	if errors.Is(err, ErrBadRequest) || err != nil && asker.Err() != nil {
		return
	}
	b.lock.Lock()
	defer b.lock.Unlock()
	if !errors.Is(err, ErrDisconnected) && !errors.Is(err, context.DeadlineExceeded) {
		b.failures, b.backoff = 0, backoff{}
		return
	}
	b.failures++
	if b.failures >= failuresInARow {
		b.triedUntil = time.Time{}
		b.backoff.failedAt(b.clock())
	}
}
