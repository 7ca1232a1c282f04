// A service of guards by the Go client, which logs each refusal on standard error, for scripts/check/reasons_beside.py:
//
//	go_guard SOCKET NAME PORT [NAME PORT ..]    a guard by each key name, at its port of 127.0.0.1
//
// What its hook is told of each request stands on standard output.
package main

import (
	"context"
	"fmt"
	"log"
	"macaroond"
	"net/http"
	"os"
)

func main() {
	client, err := macaroond.Dial(context.Background(), os.Args[1])
	if err != nil {
		log.Fatal(err)
	}
	logger := log.New(os.Stderr, "", log.LstdFlags)
	hook := func(_ *http.Request, found macaroond.Judgement) { fmt.Println(found) }
	served := http.HandlerFunc(func(w http.ResponseWriter, _ *http.Request) { fmt.Fprintln(w, "hello") })
	ended := make(chan error)
	for pairs := os.Args[2:]; len(pairs) > 0; pairs = pairs[2:] {
		guard := macaroond.Guard(client, pairs[0], macaroond.RequestFacts, macaroond.GuardLog(logger), macaroond.GuardHook(hook))
		address := "127.0.0.1:" + pairs[1]
		go func() { ended <- http.ListenAndServe(address, guard(served)) }()
	}
	log.Fatal(<-ended)
}
