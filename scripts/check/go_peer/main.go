// Makes and judges tokens by gopkg.in/macaroon.v2, for scripts/peers.py.
//
//	go_peer mint FORM SECRET LOCATION IDENTIFIER [CAVEAT ..]    prints a token
//	go_peer verify FORM SECRET TOKEN [FACT ..]                  prints whether it is granted
package main

import (
	"encoding/base64"
	"encoding/hex"
	"encoding/json"
	"errors"
	"fmt"
	"os"
	"strings"

	"gopkg.in/macaroon.v2"
)

// A token in one of the forms of examples/request.py.
func written(form string, token *macaroon.Macaroon) (string, error) {
	if form == "v2-json" {
		text, err := json.Marshal(token)
		return string(text), err
	}
	content, err := token.MarshalBinary()
	if form == "v2-binary" {
		return "hex:" + hex.EncodeToString(content), err
	}
	return base64.RawURLEncoding.EncodeToString(content), err
}

func read(form, text string) (*macaroon.Macaroon, error) {
	token := new(macaroon.Macaroon)
	if form == "v2-json" {
		return token, json.Unmarshal([]byte(text), token)
	}
	if form == "v2-binary" {
		content, err := hex.DecodeString(strings.TrimPrefix(text, "hex:"))
		if err != nil {
			return nil, err
		}
		return token, token.UnmarshalBinary(content)
	}
	content, err := macaroon.Base64Decode([]byte(text))
	if err != nil {
		return nil, err
	}
	return token, token.UnmarshalBinary(content)
}

func mint(form, secret, location, identifier string, caveats []string) (string, error) {
	version := macaroon.V2
	if form == "v1-text" {
		version = macaroon.V1
	}
	token, err := macaroon.New([]byte(secret), []byte(identifier), location, version)
	if err != nil {
		return "", err
	}
	for _, caveat := range caveats {
		if err := token.AddFirstPartyCaveat([]byte(caveat)); err != nil {
			return "", err
		}
	}
	return written(form, token)
}

func verdict(form, secret, text string, facts []string) string {
	token, err := read(form, text)
	if err != nil {
		return "unread: " + err.Error()
	}
	check := func(caveat string) error {
		for _, fact := range facts {
			if fact == caveat {
				return nil
			}
		}
		return errors.New("no fact says " + caveat)
	}
	if err := token.Verify([]byte(secret), check, nil); err != nil {
		return "refused: " + err.Error()
	}
	return "granted"
}

func main() {
	words := os.Args[1:]
	switch {
	case len(words) >= 5 && words[0] == "mint":
		text, err := mint(words[1], words[2], words[3], words[4], words[5:])
		if err != nil {
			fmt.Fprintln(os.Stderr, err)
			os.Exit(1)
		}
		fmt.Println(text)
	case len(words) >= 4 && words[0] == "verify":
		fmt.Println(verdict(words[1], words[2], words[3], words[4:]))
	default:
		fmt.Fprintln(os.Stderr, "go_peer mint | verify, see its source")
		os.Exit(2)
	}
}
