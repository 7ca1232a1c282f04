// Answers rows by gopkg.in/macaroon.v2, go-macaroon.
package main

import "gopkg.in/macaroon.v2"

func read(content []byte) (*macaroon.Macaroon, error) {
	token := new(macaroon.Macaroon)
	switch {
	case len(content) > 0 && content[0] == '{':
		return token, token.UnmarshalJSON(content)
	case len(content) > 0 && (content[0] == '0' || content[0] == 2):
		return token, token.UnmarshalBinary(content)
	}
	decoded, err := macaroon.Base64Decode(content)
	if err != nil {
		return nil, err
	}
	return token, token.UnmarshalBinary(decoded)
}

func reading(content []byte) (parts, error) {
	token, err := read(content)
	if err != nil {
		return parts{}, err
	}
	told := partsOf([]byte(token.Location()), token.Id(), token.Signature())
	for _, one := range token.Caveats() {
		told.add(one.Id, one.VerificationId, one.Location)
	}
	return told, nil
}

func minted(row given) (*macaroon.Macaroon, error) {
	version := map[bool]macaroon.Version{true: macaroon.V1, false: macaroon.V2}[row.Form == "v1-text"]
	token, err := macaroon.New([]byte(row.Secret), []byte(row.Identifier), string(row.Location), version)
	for at := 0; at < len(row.Caveats) && err == nil; at++ {
		err = token.AddFirstPartyCaveat([]byte(row.Caveats[at]))
	}
	return token, err
}

func writing(row given) ([]byte, error) {
	token, err := minted(row)
	if err != nil {
		return nil, err
	}
	return token.MarshalBinary()
}

func signature(row given) ([]byte, error) {
	token, err := minted(row)
	return token.Signature(), err
}

func main() {
	run(library{reading: reading, writing: writing, signature: signature, verdict: func(row given) bool {
		token, err := read([]byte(row.Token))
		return err == nil && token.Verify([]byte(row.Secrets[0]), row.check, nil) == nil
	}})
}
