// Answers rows by macaroond's client for Go, as far as it needs no daemon.
package main

import (
	"errors"
	"macaroond"
)

var refusals = map[int]refusal{19: "transport", 20: "malformed", 21: "third party", 22: "limit", 26: "caveat location"}

func main() {
	run(library{tellsWhy: true, reading: func(token []byte) (parts, error) {
		found, err := macaroond.Inspect(string(token))
		var refused *macaroond.RefusedError
		if errors.As(err, &refused) {
			return parts{}, refusals[refused.Code]
		}
		told := partsOf([]byte(found.Location), []byte(found.Identifier), found.Signature[:])
		for _, one := range found.Caveats {
			told.add([]byte(one), nil, "")
		}
		return told, err
	}})
}
