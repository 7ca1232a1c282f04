package macaroond

import (
	"bufio"
	"encoding/binary"
	"io"
	"net"
	"path/filepath"
	"testing"
)

// A server that follows a script, in place of the daemon: it can cut, wait, lie and leave.

var granted = []byte{codeGranted}

// stream is the server's side of one connection.
type stream struct {
	net.Conn
	received *bufio.Reader
	hello    byte
	place    uint64
}

type script func(*stream)

// request gives the next request's payload; at the end there is none.
func (s *stream) request() ([]byte, bool) {
	var front [4]byte
	if _, err := io.ReadFull(s.received, front[:]); err != nil {
		return nil, false
	}
	payload := make([]byte, binary.BigEndian.Uint32(front[:]))
	_, err := io.ReadFull(s.received, payload)
	return payload, err == nil
}

func (s *stream) requests(count int) (payloads [][]byte) {
	for len(payloads) < count {
		payload, isThere := s.request()
		if !isThere {
			break
		}
		payloads = append(payloads, payload)
	}
	return payloads
}

func (s *stream) framed(content []byte) []byte {
	s.place++
	return framedAt(s.place-1, content)
}

func (s *stream) reply(content []byte) { s.Write(s.framed(content)) }

func framedAt(place uint64, content []byte) []byte {
	made := binary.BigEndian.AppendUint32(nil, uint32(8+len(content)))
	return append(binary.BigEndian.AppendUint64(made, place), content...)
}

func echoes(s *stream) {
	for payload, isThere := s.request(); isThere; payload, isThere = s.request() {
		s.reply(append([]byte{codeToken}, payload...))
	}
}

func grants(s *stream) {
	for _, isThere := s.request(); isThere; _, isThere = s.request() {
		s.reply(granted)
	}
}

func leaves(s *stream) { s.request() }

// server gives the path of a socket where the n-th connection goes by the n-th
// script; connections behind the last are closed at once.
func server(t testing.TB, scripts ...script) string {
	path := filepath.Join(t.TempDir(), "socket")
	serve(t, path, scripts...)
	return path
}

func serve(t testing.TB, path string, scripts ...script) {
	listener, err := net.Listen("unix", path)
	if err != nil {
		t.Fatal(err)
	}
	t.Cleanup(func() { listener.Close() })
	go func() {
		for {
			socket, err := listener.Accept()
			if err != nil {
				return
			}
			if len(scripts) == 0 {
				socket.Close()
				continue
			}
			go follow(socket, scripts[0])
			scripts = scripts[1:]
		}
	}()
}

func follow(socket net.Conn, script script) {
	defer socket.Close()
	s := &stream{Conn: socket, received: bufio.NewReader(socket)}
	s.hello, _ = s.received.ReadByte()
	script(s)
}
