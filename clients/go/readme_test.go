//go:build daemon

// The examples of clients/README.md, which ask a daemon at ./socket.
package macaroond_test

import (
	"context"
	"errors"
	"fmt"
	"log"
	"macaroond"
)

func Example() {
	ctx := context.Background()
	client, err := macaroond.Dial(ctx, "./socket")
	if err != nil {
		log.Fatal(err)
	}
	token, err := client.Mint(ctx, macaroond.Mint{Key: "bank", Identifier: "alice", Location: "http://mybank/"})
	if err != nil {
		log.Fatal(err)
	}
	narrow, err := client.Attenuate(ctx, token, "action = read", "time < 2100-01-01T00:00")
	if err != nil {
		log.Fatal(err)
	}
	verdict, err := client.Verify(ctx, "bank", narrow, "action = read", "path = /account")
	if err != nil {
		log.Fatal(err)
	}
	if verdict.Granted() {
		fmt.Println(verdict.Identifier())
	}
	verdict, err = client.Verify(ctx, "bank", narrow, "action = write")
	if err != nil {
		log.Fatal(err)
	}
	fmt.Println(verdict.Granted(), verdict.Code, verdict.Caveat, verdict.Reason())

	checks := make([]macaroond.Check, 10_000)
	for at := range checks {
		checks[at] = macaroond.Check{Token: narrow, Facts: []string{"action = read"}}
	}
	verdicts, err := client.VerifyMany(ctx, "bank", checks)
	if err != nil {
		log.Fatal(err)
	}
	fmt.Println(len(verdicts), verdicts[9_999].Granted())

	_, err = client.Mint(ctx, macaroond.Mint{Key: "pier", Identifier: "alice"})
	fmt.Println(errors.Is(err, macaroond.ErrUnknownKey), err)

	said, err := macaroond.Inspect(narrow)
	if err != nil {
		log.Fatal(err)
	}
	fmt.Println(said.Identifier, said.Caveats)

	// Output:
	// alice
	// false 24 0 caveat 0 is not satisfied: action = read
	// 10000 true
	// true macaroond: the key file has no key of this name
	// alice [action = read time < 2100-01-01T00:00]
}
