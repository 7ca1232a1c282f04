// Asks a daemon by the Go client from 64 goroutines, and compares every reply with
// what gopkg.in/macaroon.v2 says, for scripts/clients.py.
//
//	go_client ask SOCKET COUNT    prints a line for each reply that is another, ten at most
//	go_client inspect             prints what the client says of each token of standard input, in hexadecimal
//	go_client words SOCKET        prints the verdict on each token of standard input, without facts
package main

import (
	"bufio"
	"context"
	"encoding/base64"
	"encoding/hex"
	"errors"
	"fmt"
	"log"
	"macaroond"
	"math/rand"
	"os"
	"strconv"
	"strings"
	"sync"

	"gopkg.in/macaroon.v2"
)

const (
	askers   = 64
	toldMax  = 10
	location = "http://mybank/"
)

// The secrets of examples/keys.
var secrets = map[string]string{
	"bank": "this is our super secret key; only we should know it",
	"shop": "another long secret",
}

// A random token, and what it was made of.
type subject struct {
	key, identifier, token string
	caveats                []string
	form                   macaroond.Form
}

// A kind of request: what it comes to by the client, and what it has to come to.
type kind func(*macaroond.Client, *rand.Rand, subject) (came, due string)

var kinds = []kind{minted, narrowed, granted, granted, lacking, forged, cut, unknown}

func main() {
	switch os.Args[1] {
	case "inspect":
		inspect()
		return
	case "words":
		tell(os.Args[2])
		return
	}
	count, err := strconv.Atoi(os.Args[3])
	if err != nil {
		log.Fatal(err)
	}
	ask(os.Args[2], count)
}

// inspect prints a line for each token: the fault's number, or the fields in hexadecimal.
func inspect() {
	lines := bufio.NewScanner(os.Stdin)
	lines.Buffer(nil, 1<<20)
	out := bufio.NewWriter(os.Stdout)
	defer out.Flush()
	for lines.Scan() {
		token, err := hex.DecodeString(lines.Text())
		if err != nil {
			log.Fatal(err)
		}
		read, err := macaroond.Inspect(string(token))
		var refusal *macaroond.RefusedError
		if errors.As(err, &refusal) {
			fmt.Fprintln(out, refusal.Code)
			continue
		}
		fmt.Fprintf(out, "%d %x -%x -%x", read.Form, read.Signature, read.Location, read.Identifier)
		for _, caveat := range read.Caveats {
			fmt.Fprintf(out, " -%x", caveat)
		}
		fmt.Fprintln(out)
	}
}

// tell prints the verdict on each token.
func tell(path string) {
	client, err := macaroond.Dial(context.Background(), path)
	if err != nil {
		log.Fatal(err)
	}
	lines := bufio.NewScanner(os.Stdin)
	for lines.Scan() {
		verdict, err := client.Verify(context.Background(), "bank", lines.Text())
		if err != nil {
			log.Fatal(err)
		}
		fmt.Println(verdict)
	}
}

func ask(path string, count int) {
	client, err := macaroond.Dial(context.Background(), path)
	if err != nil {
		log.Fatal(err)
	}
	var all sync.WaitGroup
	wrong := make(chan string, count)
	for asker := 0; asker < askers; asker++ {
		all.Add(1)
		go func(asker int) {
			defer all.Done()
			rng := rand.New(rand.NewSource(int64(asker)))
			for number := asker; number < count; number += askers {
				if came, due := kinds[rng.Intn(len(kinds))](client, rng, newSubject(rng)); came != due {
					wrong <- fmt.Sprintf("%q came where %q was due", came, due)
				}
			}
		}(asker)
	}
	all.Wait()
	close(wrong)
	for told := 0; told < toldMax; told++ {
		if one, isThere := <-wrong; isThere {
			fmt.Println(one)
		}
	}
}

func newSubject(rng *rand.Rand) subject {
	made := subject{key: "bank", identifier: fmt.Sprintf("user %d", rng.Intn(1_000_000_000)), form: macaroond.V1Text}
	if rng.Intn(2) == 0 {
		made.key = "shop"
	}
	if rng.Intn(2) == 0 {
		made.form = macaroond.V2Text
	}
	for left := rng.Intn(4); left > 0; left-- {
		made.caveats = append(made.caveats, fmt.Sprintf("account = %d", rng.Intn(1_000_000_000)))
	}
	made.token = made.written(made.caveats)
	return made
}

// written is the library's token of the subject with these caveats.
func (s subject) written(caveats []string) string {
	version := macaroon.V2
	if s.form == macaroond.V1Text {
		version = macaroon.V1
	}
	token, err := macaroon.New([]byte(secrets[s.key]), []byte(s.identifier), location, version)
	if err != nil {
		log.Fatal(err)
	}
	for _, caveat := range caveats {
		if err := token.AddFirstPartyCaveat([]byte(caveat)); err != nil {
			log.Fatal(err)
		}
	}
	content, err := token.MarshalBinary()
	if err != nil {
		log.Fatal(err)
	}
	return base64.RawURLEncoding.EncodeToString(content)
}

// said is the library's verdict, as verified tells the client's.
func said(key, text string, facts []string) string {
	content, err := base64.RawURLEncoding.DecodeString(text)
	if err != nil {
		return "bad token"
	}
	token := new(macaroon.Macaroon)
	if token.UnmarshalBinary(content) != nil {
		return "bad token"
	}
	caveats, err := token.VerifySignature([]byte(secrets[key]), nil)
	if err != nil {
		return "bad signature"
	}
	for number, caveat := range caveats {
		isKnown := false
		for _, fact := range facts {
			isKnown = isKnown || fact == caveat
		}
		if !isKnown {
			return fmt.Sprint("caveat ", number)
		}
	}
	return "granted to " + string(token.Id())
}

// verified is the client's verdict.
func verified(client *macaroond.Client, key, token string, facts []string) string {
	verdict, err := client.Verify(context.Background(), key, token, facts...)
	switch {
	case err != nil:
		return err.Error()
	case verdict.Granted():
		return "granted to " + verdict.Identifier()
	case verdict.Code == 23:
		return "bad signature"
	case verdict.Code == 24:
		return fmt.Sprint("caveat ", verdict.Caveat)
	}
	return "bad token"
}

// told is a token, or the error in its place.
func told(token string, err error) string {
	if errors.Is(err, macaroond.ErrBadToken) {
		return "bad token"
	}
	if err != nil {
		return err.Error()
	}
	return token
}

func minted(client *macaroond.Client, _ *rand.Rand, s subject) (came, due string) {
	mint := macaroond.Mint{Key: s.key, Identifier: s.identifier, EmptyIdentifier: true, Location: location, Caveats: s.caveats, Form: s.form}
	return told(client.Mint(context.Background(), mint)), s.token
}

func narrowed(client *macaroond.Client, _ *rand.Rand, s subject) (came, due string) {
	return told(client.Attenuate(context.Background(), s.token, "a = 1", "b")), s.written(append(s.caveats, "a = 1", "b"))
}

func granted(client *macaroond.Client, rng *rand.Rand, s subject) (came, due string) {
	facts := append([]string{"method = GET"}, s.caveats...)
	rng.Shuffle(len(facts), func(a, b int) { facts[a], facts[b] = facts[b], facts[a] })
	return verified(client, s.key, s.token, facts), said(s.key, s.token, facts)
}

// A fact is another than a caveat.
func lacking(client *macaroond.Client, rng *rand.Rand, s subject) (came, due string) {
	facts := append([]string(nil), s.caveats...)
	if len(facts) > 0 {
		facts[rng.Intn(len(facts))] += "0"
	}
	return verified(client, s.key, s.token, facts), said(s.key, s.token, facts)
}

// The token was made under another key.
func forged(client *macaroond.Client, _ *rand.Rand, s subject) (came, due string) {
	other := map[string]string{"bank": "shop", "shop": "bank"}[s.key]
	return verified(client, other, s.token, s.caveats), said(other, s.token, s.caveats)
}

// A part of a token is none.
func cut(client *macaroond.Client, rng *rand.Rand, s subject) (came, due string) {
	content, _ := base64.RawURLEncoding.DecodeString(s.token)
	part := base64.RawURLEncoding.EncodeToString(content[:len(content)-1-rng.Intn(30)])
	return verified(client, s.key, part, s.caveats), said(s.key, part, s.caveats)
}

func unknown(client *macaroond.Client, _ *rand.Rand, s subject) (came, due string) {
	_, err := client.Verify(context.Background(), "pier", s.token)
	if !errors.Is(err, macaroond.ErrUnknownKey) {
		return strings.TrimSpace(fmt.Sprint("for an unknown key ", err)), "an error"
	}
	return "", ""
}
