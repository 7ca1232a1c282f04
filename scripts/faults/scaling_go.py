"""A program over clients/go that asks as scaling_asking.py does, built where Go is installed."""
import pathlib
import subprocess
import sys

sys.path.insert(0, str(pathlib.Path(__file__).resolve().parents[1]))
from check.clients import GO, GO_ALONE

MODULE = f"""module scaling

go 1.19

require macaroond v0.0.0

replace macaroond => {GO}
"""
# Its words are a socket and how many clients there are; it ends once its standard input ends.
SOURCE = r'''package main

import (
	"context"
	"encoding/json"
	"errors"
	"fmt"
	"io"
	"macaroond"
	"os"
	"strconv"
	"sync"
	"sync/atomic"
	"time"
)

const (
	used, life      = time.Second, 3 * time.Second
	patience, pause = 30 * time.Second, 50 * time.Millisecond
	replyWithin     = 60 * time.Second
	together        = 10
	between         = 5 * time.Millisecond
)

var (
	isOver                         atomic.Bool
	asked, minted, late, lost      atomic.Int64
	repeated, mintsRepeated, waits atomic.Int64
	lock                           sync.Mutex
	wrong                          = []string{}
	ctx                            = context.Background()
)

// patiently asks until there is a reply, counts each time but the first, and tells whether one came in time.
func patiently(again *atomic.Int64, ask func() error) bool {
	begin := time.Now()
	for {
		err := ask()
		for {
			longest, waited := waits.Load(), int64(time.Since(begin))
			if waited <= longest || waits.CompareAndSwap(longest, waited) {
				break
			}
		}
		if err == nil {
			return true
		}
		if !errors.Is(err, macaroond.ErrDisconnected) {
			note(err.Error())
			return false
		}
		again.Add(1)
		if time.Since(begin) > patience {
			lost.Add(1)
			return false
		}
		time.Sleep(pause)
	}
}

func note(fault string) {
	lock.Lock()
	wrong = append(wrong, fault)
	lock.Unlock()
}

func said(verdict macaroond.Verdict) string {
	if verdict.Granted() {
		return "granted " + verdict.Identifier()
	}
	return fmt.Sprint("refused ", verdict.Code)
}

func mint(client *macaroond.Client, key, identifier string) (token string) {
	patiently(&mintsRepeated, func() (err error) {
		token, err = client.Mint(ctx, macaroond.Mint{Key: key, Identifier: identifier, Caveats: []string{"method = GET"}})
		return err
	})
	minted.Add(1)
	return token
}

// judge compares verdicts with those that are due, unless the token may have outlived its key.
func judge(verdicts []macaroond.Verdict, due []string, since time.Time) {
	if time.Since(since) > life {
		late.Add(int64(len(verdicts)))
		return
	}
	asked.Add(int64(len(verdicts)))
	for at, verdict := range verdicts {
		if came := said(verdict); came != due[at] {
			note(came + " where " + due[at] + " is due")
		}
	}
}

func dialled(path string) (client *macaroond.Client) {
	patiently(&repeated, func() (err error) {
		client, err = macaroond.Dial(ctx, path, macaroond.WithRetry(), macaroond.WithTimeout(replyWithin))
		return err
	})
	return client
}

func ask(path, identifier string) {
	client := dialled(path)
	if client == nil {
		return
	}
	defer client.Close()
	steady := mint(client, "shop", identifier)
	var token string
	var since time.Time
	for !isOver.Load() {
		if time.Since(since) > used {
			since = time.Now()
			token = mint(client, "bank", identifier)
		}
		held, lacking := []string{"method = GET"}, []string{"method = PUT"}
		checks := []macaroond.Check{{Token: token, Facts: held}, {Token: token, Facts: lacking}, {Token: steady, Facts: held}}
		due := []string{"granted " + identifier, "refused 24", "refused 23"}
		for at, check := range checks {
			var verdict macaroond.Verdict
			if patiently(&repeated, func() (err error) { verdict, err = client.VerifyCheck(ctx, "bank", check); return err }) {
				judge([]macaroond.Verdict{verdict}, due[at:at+1], since)
			}
		}
		many, dues := checks, due
		for len(many) < 3*together {
			many, dues = append(many, checks...), append(dues, due...)
		}
		var verdicts []macaroond.Verdict
		if patiently(&repeated, func() (err error) { verdicts, err = client.VerifyMany(ctx, "bank", many); return err }) {
			judge(verdicts, dues, since)
		}
		time.Sleep(between)
	}
}

func main() {
	count, _ := strconv.Atoi(os.Args[2])
	var all sync.WaitGroup
	for number := 0; number < count; number++ {
		all.Add(1)
		go func(number int) {
			defer all.Done()
			ask(os.Args[1], fmt.Sprint("gopher-", number))
		}(number)
	}
	io.ReadAll(os.Stdin)
	isOver.Store(true)
	all.Wait()
	told := map[string]any{"asked": asked.Load(), "minted": minted.Load(), "repeated": repeated.Load(),
		"mints_repeated": mintsRepeated.Load(), "late": late.Load(), "lost": lost.Load(), "longest": time.Duration(waits.Load()).Seconds(), "wrong": wrong, "wrongs": len(wrong)}
	if len(wrong) > 10 {
		told["wrong"] = wrong[:10]
	}
	json.NewEncoder(os.Stdout).Encode(told)
}
'''


def built(folder):
    """The path of the program, built in a folder of its own."""
    sources = pathlib.Path(folder) / "scaling_go"
    sources.mkdir()
    (sources / "go.mod").write_text(MODULE)
    (sources / "main.go").write_text(SOURCE)
    run = subprocess.run(["go", "build", "-o", "scaling", "."], cwd=sources, env=GO_ALONE, capture_output=True, text=True)
    if run.returncode != 0:
        raise SystemExit(f"the Go program can't be built: {run.stdout}{run.stderr}")
    return str(sources / "scaling")
