// A macaroon service over net/http and gopkg.in/macaroon.v2, to measure the HTTP face of macaroond beside: the same
// paths, fields and statuses, but no JSON tokens and no refusal of unsafe paths.
//
//	go_http ADDRESS KEYS
package main

import (
	"encoding/hex"
	"fmt"
	"net"
	"net/http"
	"os"
	"strconv"
	"strings"
	"time"

	"gopkg.in/macaroon.v2"
)

const headMax = 48 << 10

func main() {
	secrets := secretsByName(os.Args[2])
	listener, err := net.Listen("tcp", os.Args[1])
	if err != nil {
		panic(err)
	}
	http.HandleFunc("/healthz", func(w http.ResponseWriter, r *http.Request) { fmt.Fprintln(w, "ok") })
	http.HandleFunc("/verify/", func(w http.ResponseWriter, r *http.Request) { verify(secrets, w, r) })
	server := &http.Server{MaxHeaderBytes: headMax}
	fmt.Println("listening at", os.Args[1])
	panic(server.Serve(listener))
}

func secretsByName(file string) map[string][]byte {
	text, _ := os.ReadFile(file)
	secrets := map[string][]byte{}
	for _, line := range strings.Split(string(text), "\n") {
		if words := strings.Split(line, " "); len(words) == 3 && words[0] == "key" {
			secrets[words[1]], _ = hex.DecodeString(words[2])
		}
	}
	return secrets
}

func verify(secrets map[string][]byte, w http.ResponseWriter, r *http.Request) {
	secret, isKnown := secrets[r.URL.Path[len("/verify/"):]]
	if !isKnown {
		w.WriteHeader(404)
		return
	}
	token, isThere := tokenIn(r)
	if !isThere {
		refuse(w, "Macaroon")
		return
	}
	conditions, err := token.VerifySignature(secret, nil)
	if err != nil {
		refuse(w, `Macaroon error="invalid_token"`)
		return
	}
	if i := unsatisfied(conditions, r.Header["Macaroon-Fact"]); i >= 0 {
		w.Header().Set("Content-Type", "application/json")
		w.Header().Set("Macaroon-Reason", "24 "+strconv.Itoa(i))
		w.WriteHeader(403)
		fmt.Fprintf(w, `{"code":24,"caveat":%d,"reason":"caveat %d is not satisfied"}`, i, i)
		return
	}
	w.Header().Set("Macaroon-Identifier", string(token.Id()))
	w.Header().Set("Macaroon-Location", token.Location())
}

func refuse(w http.ResponseWriter, challenge string) {
	w.Header().Set("WWW-Authenticate", challenge)
	w.WriteHeader(401)
}

// The token of the one field for it.
func tokenIn(r *http.Request) (*macaroon.Macaroon, bool) {
	all := r.Header["Authorization"]
	if len(all) != 1 {
		return nil, false
	}
	scheme, text, _ := strings.Cut(all[0], " ")
	if !strings.EqualFold(scheme, "Macaroon") && !strings.EqualFold(scheme, "Bearer") {
		return nil, false
	}
	bytes, err := macaroon.Base64Decode([]byte(text))
	if err != nil {
		return nil, false
	}
	token := new(macaroon.Macaroon)
	return token, token.UnmarshalBinary(bytes) == nil
}

// The index of the first condition that doesn't hold, or -1.
func unsatisfied(conditions, told []string) int {
	facts := map[string]bool{}
	for _, fact := range told {
		facts[fact] = true
	}
	now := time.Now()
	for i, condition := range conditions {
		if facts[condition] {
			continue
		}
		end, err := time.Parse("time < 2006-01-02T15:04", strings.TrimSuffix(condition, "Z"))
		if err != nil || !now.Before(end) {
			return i
		}
	}
	return -1
}
