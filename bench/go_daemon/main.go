// A macaroon service over gopkg.in/macaroon.v2, to measure macaroond beside: the same frames, requests and replies, but no
// JSON, one number (20) for what is no token, no reply to a frame that is too long, and no refusal of unknown names.
//
//	go_daemon listen --socket PATH --keys FILE [--workers COUNT] [--batch COUNT] [--inline] [--remember TOKENS]
//
// As it comes, workers answer what a connection's goroutine reads. With --inline that goroutine answers it, and with
// --remember tokens whose signature was found right aren't hashed again.
package main

import (
	"bufio"
	"encoding/base64"
	"encoding/binary"
	"encoding/hex"
	"flag"
	"fmt"
	"gopkg.in/macaroon.v2"
	"io"
	"net"
	"os"
	"runtime"
	"strings"
	"time"
)

const frameMax = 65_536

// Frames of a connection that one worker answers.
type job struct {
	payloads [][]byte
	replies  chan []byte
}

func main() {
	words := flag.NewFlagSet("go_daemon listen", flag.ExitOnError)
	socket := words.String("socket", "", "the socket's path")
	file := words.String("keys", "", "the key file")
	workers := words.Int("workers", runtime.NumCPU(), "how many goroutines answer")
	batch := words.Int("batch", 1, "how many frames that have arrived together are one job at most")
	inline := words.Bool("inline", false, "whether a frame is answered where it is read")
	tokens := words.Int("remember", 0, "how many tokens are remembered at most")
	words.Parse(os.Args[2:])
	own := service{secrets: secretsByName(*file), memory: newMemory(*tokens)}
	listener, err := net.Listen("unix", *socket)
	if err != nil {
		panic(err)
	}
	jobs := make(chan job, 1024)
	for i := 0; i < *workers; i++ {
		go work(own, jobs)
	}
	fmt.Printf("listening at %s: %d keys, %d workers\n", *socket, len(own.secrets), *workers)
	for {
		stream, err := listener.Accept()
		if err == nil && *inline {
			go converse(own, stream)
		} else if err == nil {
			due := make(chan job, 64)
			go receive(stream, jobs, due, *batch)
			go send(stream, due)
		}
	}
}

func secretsByName(file string) map[string][]byte {
	text, _ := os.ReadFile(file)
	secrets := map[string][]byte{}
	for _, line := range strings.Split(string(text), "\n") {
		if words := strings.Split(line, " "); len(words) == 3 && words[0] == "key" {
			secrets[words[1]], _ = hex.DecodeString(words[2])
		}
	}
	return secrets
}

// What requests are answered by.
type service struct {
	secrets map[string][]byte
	memory  *memory
}

func work(own service, jobs <-chan job) {
	for asked := range jobs {
		var replies []byte
		for _, payload := range asked.payloads {
			replies = appendReply(replies, own, payload)
		}
		asked.replies <- replies
	}
}

func appendReply(replies []byte, own service, payload []byte) []byte {
	reply := answer(own, payload)
	return append(binary.BigEndian.AppendUint32(replies, uint32(len(reply))), reply...)
}

// Answers each frame where it is read, and writes once no further one has arrived whole. A frame that is too long is the
// end.
func converse(own service, stream net.Conn) {
	defer stream.Close()
	reader := bufio.NewReaderSize(stream, 2*frameMax)
	var replies []byte
	for {
		head, err := reader.Peek(4)
		if err != nil || binary.BigEndian.Uint32(head) > frameMax {
			return
		}
		frame, err := reader.Peek(4 + int(binary.BigEndian.Uint32(head)))
		if err != nil {
			return
		}
		replies = appendReply(replies, own, frame[4:])
		reader.Discard(len(frame))
		if len(replies) < frameMax && hasWhole(reader) {
			continue
		}
		if _, err := stream.Write(replies); err != nil {
			return
		}
		replies = replies[:0]
	}
}

// Whether the next frame has arrived whole.
func hasWhole(reader *bufio.Reader) bool {
	if reader.Buffered() < 4 {
		return false
	}
	head, _ := reader.Peek(4)
	return reader.Buffered() >= 4+int(binary.BigEndian.Uint32(head))
}

func receive(stream net.Conn, jobs, due chan<- job, batch int) {
	defer close(due)
	reader := bufio.NewReaderSize(stream, 2*frameMax)
	for isEnd := false; !isEnd; {
		asked := job{replies: make(chan []byte, 1)}
		asked.payloads, isEnd = gathered(reader, batch)
		due <- asked
		jobs <- asked
	}
}

// The next frame, with those that have arrived whole behind it. A frame that is too long is the end.
func gathered(reader *bufio.Reader, most int) (payloads [][]byte, isEnd bool) {
	for len(payloads) == 0 || len(payloads) < most && reader.Buffered() >= 4 {
		head, err := reader.Peek(4)
		if err != nil || binary.BigEndian.Uint32(head) > frameMax {
			return payloads, true
		}
		length := int(binary.BigEndian.Uint32(head))
		if len(payloads) > 0 && !hasWhole(reader) {
			break
		}
		frame := make([]byte, 4+length)
		if _, err := io.ReadFull(reader, frame); err != nil {
			return payloads, true
		}
		payloads = append(payloads, frame[4:])
	}
	return payloads, false
}

// Writes replies in order; those that are there together go out together.
func send(stream net.Conn, due <-chan job) {
	defer stream.Close()
	writer := bufio.NewWriterSize(stream, frameMax)
	for asked := range due {
		writer.Write(<-asked.replies)
		if len(due) == 0 {
			writer.Flush()
		}
	}
}

// What is left of a payload. Taking more than that panics.
type fields []byte

func (f *fields) take(count int) []byte {
	taken := (*f)[:count]
	*f = (*f)[count:]
	return taken
}

func (f *fields) number() int   { return int(f.take(1)[0]) }
func (f *fields) name() string  { return string(f.take(f.number())) }
func (f *fields) field() []byte { return f.take(int(binary.BigEndian.Uint16(f.take(2)))) }

// The payload of the reply to a request. What is no request panics on its way.
func answer(own service, payload []byte) (reply []byte) {
	defer func() {
		if recover() != nil {
			reply = []byte{16}
		}
	}()
	f := fields(payload)
	switch kind := f.number(); kind {
	case 1, 2:
		form, token := f.number(), new(macaroon.Macaroon)
		if kind == 1 {
			secret, location := own.secrets[f.name()], string(f.field())
			version := map[int]macaroon.Version{1: macaroon.V1, 2: macaroon.V2, 4: macaroon.V2}[form]
			token, _ = macaroon.New(secret, f.field(), location, version)
		} else if token.UnmarshalBinary(bare(f.field())) != nil {
			return []byte{20}
		}
		for count := f.number(); count > 0; count-- {
			token.AddFirstPartyCaveat(f.field())
		}
		written, _ := token.MarshalBinary()
		if form != 2 {
			written = []byte(base64.RawURLEncoding.EncodeToString(written))
		}
		return append([]byte{1}, written...)
	case 3:
		name, token := f.name(), f.field()
		moment, facts := binary.BigEndian.Uint64(f.take(8)), make([][]byte, f.number())
		for i := range facts {
			facts[i] = f.field()
		}
		caveats, fault := own.caveats(name, token)
		if fault != 0 {
			return []byte{fault}
		}
		return verdict(caveats, moment, facts)
	}
	return []byte{16}
}

// The token's bytes, which may stand as text.
func bare(written []byte) []byte {
	if written[0] == 2 || written[0] == '0' {
		return written
	}
	decoded, _ := macaroon.Base64Decode(written)
	return decoded
}

// The caveats of a token whose signature the name's secret gives, or the number of a refusal.
func (own service) caveats(name string, written []byte) ([]string, byte) {
	if caveats, ok := own.memory.find(name, written); ok {
		return caveats, 0
	}
	token := new(macaroon.Macaroon)
	if token.UnmarshalBinary(bare(written)) != nil {
		return nil, 20
	}
	caveats, err := token.VerifySignature(own.secrets[name], nil)
	if err != nil {
		return nil, 23
	}
	own.memory.keep(name, written, caveats)
	return caveats, 0
}

func verdict(caveats []string, moment uint64, facts [][]byte) []byte {
	for i, condition := range caveats {
		if holds(condition, facts) {
			continue
		}
		end, err := time.Parse("time < 2006-01-02T15:04", strings.TrimSuffix(condition, "Z"))
		if err != nil || moment >= uint64(end.Unix()) {
			return binary.BigEndian.AppendUint16([]byte{24}, uint16(i))
		}
	}
	return []byte{0}
}

// Whether a caveat equals one of the facts.
func holds(caveat string, facts [][]byte) bool {
	for _, fact := range facts {
		if string(fact) == caveat {
			return true
		}
	}
	return false
}
