// Times the Go client beside bare loops that write and read frames, for scripts/measure/client_speed.py.
//
//	go_client SOCKET SECONDS    prints a line for each way of asking: its name and requests a second
package main

import (
	"bytes"
	"context"
	"encoding/binary"
	"fmt"
	"io"
	"log"
	"macaroond"
	"net"
	"os"
	"strconv"
	"sync"
	"sync/atomic"
	"time"
)

const (
	askers = 64
	// How many requests a bare loop writes at once, and how many are asked for together.
	chunk, many = 256, 50_000
)

var (
	background = context.Background()
	facts      = []string{"account = 3735928559", "service = mail", "action = read"}
	granted    = []byte("\x00\x00\x00\x0a\x03\x00\x05alice\x00\x00")
)

// A way of asking: it asks until told to stop, and counts.
type way func(path, token string, isOver *atomic.Bool) int

func main() {
	seconds, err := strconv.ParseFloat(os.Args[2], 64)
	check(err)
	client, err := macaroond.Dial(background, os.Args[1])
	check(err)
	token, err := client.Mint(background, macaroond.Mint{Key: "bank", Identifier: "alice", Caveats: facts, Form: macaroond.V2Binary})
	check(err)
	for _, one := range []struct {
		name string
		way  way
	}{
		{"a bare loop", flood}, {"VerifyMany", verifyMany},
		{"64 connections, one at a time", connections}, {"64 goroutines, one at a time", goroutines},
	} {
		var isOver atomic.Bool
		begin := time.Now()
		time.AfterFunc(time.Duration(seconds*float64(time.Second)), func() { isOver.Store(true) })
		count := one.way(os.Args[1], token, &isOver)
		fmt.Printf("%s\t%.0f\n", one.name, float64(count)/time.Since(begin).Seconds())
	}
}

func check(err error) {
	if err != nil {
		log.Fatal(err)
	}
}

// frame is that of a verify as the client asks it: at the daemon's clock, and whose the token is.
func frame(token string) []byte {
	payload := append([]byte{5, 4}, "bank"...)
	payload = append(binary.BigEndian.AppendUint16(payload, uint16(len(token))), token...)
	payload = append(payload, byte(len(facts)))
	for _, fact := range facts {
		payload = append(binary.BigEndian.AppendUint16(payload, uint16(len(fact))), fact...)
	}
	return append(binary.BigEndian.AppendUint32(nil, uint32(len(payload))), payload...)
}

// flood writes frames that are made already, without waiting, and compares the replies.
func flood(path, token string, isOver *atomic.Bool) int {
	socket, err := net.Dial("unix", path)
	check(err)
	frames, due := bytes.Repeat(frame(token), chunk), bytes.Repeat(granted, 2*chunk)
	written := make(chan int, 1)
	go func() {
		count := 0
		for ; !isOver.Load(); count += chunk {
			_, err := socket.Write(frames)
			check(err)
		}
		check(socket.(*net.UnixConn).CloseWrite())
		written <- count
	}()
	buffer, got := make([]byte, chunk*len(granted)), 0
	for {
		count, err := socket.Read(buffer)
		if err == io.EOF {
			break
		}
		check(err)
		if at := got % len(granted); !bytes.Equal(buffer[:count], due[at:at+count]) {
			log.Fatal("a reply was not what is due")
		}
		got += count
	}
	if count := <-written; got != count*len(granted) {
		log.Fatal("not all was answered")
	}
	return got / len(granted)
}

func verifyMany(path, token string, isOver *atomic.Bool) (count int) {
	client, err := macaroond.Dial(background, path)
	check(err)
	defer client.Close()
	checks := make([]macaroond.Check, many)
	for at := range checks {
		checks[at] = macaroond.Check{Token: token, Facts: facts}
	}
	for ; !isOver.Load(); count += many {
		verdicts, err := client.VerifyMany(background, "bank", checks)
		check(err)
		for _, verdict := range verdicts {
			if !verdict.Granted() {
				log.Fatal(verdict.Reason())
			}
		}
	}
	return count
}

// all counts what 64 goroutines ask, each one at a time.
func all(ask func(isOver *atomic.Bool) int, isOver *atomic.Bool) int {
	var count atomic.Int64
	var running sync.WaitGroup
	for asker := 0; asker < askers; asker++ {
		running.Add(1)
		go func() {
			defer running.Done()
			count.Add(int64(ask(isOver)))
		}()
	}
	running.Wait()
	return int(count.Load())
}

func connections(path, token string, isOver *atomic.Bool) int {
	asked := frame(token)
	return all(func(isOver *atomic.Bool) (count int) {
		socket, err := net.Dial("unix", path)
		check(err)
		defer socket.Close()
		reply := make([]byte, len(granted))
		for ; !isOver.Load(); count++ {
			_, err := socket.Write(asked)
			check(err)
			_, err = io.ReadFull(socket, reply)
			check(err)
			if !bytes.Equal(reply, granted) {
				log.Fatal("a reply was not what is due")
			}
		}
		return count
	}, isOver)
}

func goroutines(path, token string, isOver *atomic.Bool) int {
	client, err := macaroond.Dial(background, path)
	check(err)
	defer client.Close()
	return all(func(isOver *atomic.Bool) (count int) {
		for ; !isOver.Load(); count++ {
			verdict, err := client.Verify(background, "bank", token, facts...)
			check(err)
			if !verdict.Granted() {
				log.Fatal(verdict.Reason())
			}
		}
		return count
	}, isOver)
}
