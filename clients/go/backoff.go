package macaroond

import (
	"math/rand"
	"time"
)

// The first pause behind a failure, and the longest.
const (
	firstPause   = 50 * time.Millisecond
	longestPause = 2 * time.Second
)

// backoff tells when to connect again: pauses grow with each failure that follows
// another, and each is cut by chance, so that clients spread.
type backoff struct {
	pause time.Duration
	until time.Time
}

func (b *backoff) failed() { b.failedAt(time.Now()) }

func (b *backoff) failedAt(now time.Time) {
	b.pause *= 2
	if b.pause < firstPause {
		b.pause = firstPause
	}
	if b.pause > longestPause {
		b.pause = longestPause
	}
	b.until = now.Add(b.pause/2 + time.Duration(rand.Int63n(int64(b.pause/2))))
}

func (b *backoff) succeeded() { *b = backoff{} }

func (b *backoff) left() time.Duration { return time.Until(b.until) }
