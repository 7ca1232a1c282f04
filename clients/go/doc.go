// Package macaroond is a client of macaroond, the daemon that mints,
// attenuates and verifies macaroons over a Unix socket.
//
// A [Client] is safe for any number of goroutines. Its calls share a few connections,
// and none waits for another's reply. Tokens, keys' names, facts and caveats are
// strings of bytes, which need not be UTF-8.
//
// A connection is made by [Dial] and, once none is left, by the next call. Both wait for
// a daemon that isn't up, with pauses that grow. Another one is opened, up to [WithConnections],
// where each that is there has 11 requests out. It takes calls once it was answered, so
// one that the daemon refuses loses none.
//
// A request that was out when its connection ended returns [ErrDisconnected]: whether
// the daemon answered it isn't known. With [WithRetry] verifies and attenuates are
// sent once more instead, since they come to the same however often they are asked.
// A mint is never sent twice.
//
// A call ends with its context, and after [WithTimeout] at the latest. Its reply
// is then dropped when it comes, and the other calls' order stays.
package macaroond
