package main

import (
	"hash/maphash"
	"sync"
)

const shards = 64

// The caveats of tokens whose signature was found right, by key name and the token's bytes as they came. Where a shard is
// full, some token of it is forgotten.
type memory struct {
	seed   maphash.Seed
	shards [shards]struct {
		sync.RWMutex
		tokens map[string][]string
		_      [32]byte
	}
	most int
}

// A memory of so many tokens; none where there are none.
func newMemory(tokens int) *memory {
	if tokens == 0 {
		return nil
	}
	kept := &memory{seed: maphash.MakeSeed(), most: tokens/shards + 1}
	for i := range kept.shards {
		kept.shards[i].tokens = map[string][]string{}
	}
	return kept
}

// What a token is known by, put into room so that a look takes no memory.
func known(room []byte, name string, token []byte) []byte {
	return append(append(append(room, byte(len(name))), name...), token...)
}

func (kept *memory) find(name string, token []byte) ([]string, bool) {
	if kept == nil {
		return nil, false
	}
	var room [1024]byte
	key := known(room[:0], name, token)
	shard := &kept.shards[maphash.Bytes(kept.seed, key)%shards]
	shard.RLock()
	defer shard.RUnlock()
	caveats, ok := shard.tokens[string(key)]
	return caveats, ok
}

func (kept *memory) keep(name string, token []byte, caveats []string) {
	if kept == nil {
		return
	}
	key := known(nil, name, token)
	shard := &kept.shards[maphash.Bytes(kept.seed, key)%shards]
	shard.Lock()
	defer shard.Unlock()
	if len(shard.tokens) >= kept.most {
		for other := range shard.tokens {
			delete(shard.tokens, other)
			break
		}
	}
	shard.tokens[string(key)] = caveats
}
