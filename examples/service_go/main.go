// A service whose path /account is for those who bring a token: service SOCKET PORT
package main

import (
	"context"
	"fmt"
	"log"
	"macaroond"
	"net/http"
	"os"
)

func main() {
	client, err := macaroond.Dial(context.Background(), os.Args[1])
	if err != nil {
		log.Fatal(err)
	}
	guarded := macaroond.Guard(client, "bank", macaroond.RequestFacts, macaroond.GuardLog(log.Default()))
	http.Handle("/account", guarded(http.HandlerFunc(func(w http.ResponseWriter, r *http.Request) {
		identifier, _ := macaroond.Identifier(r.Context())
		fmt.Fprintln(w, "the account of", identifier)
	})))
	http.HandleFunc("/", func(w http.ResponseWriter, _ *http.Request) { fmt.Fprintln(w, "anybody may read this") })
	log.Fatal(http.ListenAndServe("127.0.0.1:"+os.Args[2], nil))
}
