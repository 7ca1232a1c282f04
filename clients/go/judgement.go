package macaroond

import (
	"context"
	"errors"
	"fmt"
	"net/http"
	"strconv"
)

// Why a request isn't let through where no number of a reply says it.
const (
	reasonGranted = "granted"
	reasonNoToken = "no_token"
	reasonPath    = "path"
	reasonFacts   = "facts"
	reasonAway    = "away"
	reasonLate    = "late"
	reasonGone    = "gone"
	reasonFailed  = "failed"
)

// Judgement is what became of a request at a guard, for its hook and its log. It has nothing
// of the token, of a fact or of a caveat's text but whose a granted token is.
type Judgement struct {
	// Status is that of the response; 200 where the request is let through.
	Status int
	// Reason is `granted`, the number of the daemon's refusal (docs/FORMATS.md), or a word:
	// `no_token`, `path` (it isn't plain), `facts` (no request can tell them), `away` (there is
	// no connection to the daemon), `late` (it gave no reply in time), `gone` (who asked has
	// left) or `failed` (any other error).
	Reason string
	// Caveat is the place of the caveat that isn't satisfied, from 0; else -1.
	Caveat int
	// Identifier is that of the token, where it is granted.
	Identifier string
	// The challenge is that of RFC 6750, section 3.
	challenge string
}

// Granted tells whether the request is let through.
func (j Judgement) Granted() bool { return j.Reason == reasonGranted }

// String tells the judgement as it stands in the log: `status=403 reason=24 caveat=0`.
func (j Judgement) String() string {
	text := fmt.Sprintf("status=%d reason=%s", j.Status, j.Reason)
	if j.Caveat >= 0 {
		text += fmt.Sprintf(" caveat=%d", j.Caveat)
	}
	return text
}

// told gives what `Macaroon-Reason` tells: why a request is forbidden, and nothing of any
// other refusal.
func (j Judgement) told() string {
	switch {
	case j.Status != http.StatusForbidden:
		return ""
	case j.Caveat >= 0:
		return fmt.Sprintf("%s %d", j.Reason, j.Caveat)
	}
	return j.Reason
}

// refuse answers a request that isn't let through.
func (j Judgement) refuse(w http.ResponseWriter) {
	for name, value := range map[string]string{"WWW-Authenticate": j.challenge, "Macaroon-Reason": j.told()} {
		if value != "" {
			w.Header().Set(name, value)
		}
	}
	http.Error(w, http.StatusText(j.Status), j.Status)
}

// withoutVerdict is a judgement that no verdict stands behind.
func withoutVerdict(status int, reason string) Judgement {
	return Judgement{Status: status, Reason: reason, Caveat: -1}
}

// withoutToken is what becomes of a request that brings no token.
func withoutToken() Judgement {
	return Judgement{Status: http.StatusUnauthorized, Reason: reasonNoToken, Caveat: -1, challenge: "Macaroon"}
}

// judged gives what becomes of a request whose token got a verdict. A caveat that isn't
// satisfied forbids this request; another token would be no better than a bad one.
func judged(verdict Verdict, scheme string) Judgement {
	found := Judgement{Status: http.StatusUnauthorized, Reason: strconv.Itoa(verdict.Code), Caveat: verdict.Caveat}
	switch {
	case verdict.Granted():
		return Judgement{Status: http.StatusOK, Reason: reasonGranted, Caveat: -1, Identifier: verdict.Identifier()}
	case verdict.Code == codeUnsatisfied:
		found.Status, found.challenge = http.StatusForbidden, scheme+` error="insufficient_scope"`
	default:
		found.challenge = scheme + ` error="invalid_token"`
	}
	return found
}

// failed gives what becomes of a request that got no verdict: it is not let through.
func failed(err error) Judgement {
	var refusal *RefusedError
	switch {
	case errors.Is(err, ErrNotPlain):
		return withoutVerdict(http.StatusForbidden, reasonPath)
	case errors.Is(err, ErrBadRequest):
		return withoutVerdict(http.StatusBadRequest, reasonFacts)
	case errors.As(err, &refusal):
		return withoutVerdict(http.StatusServiceUnavailable, strconv.Itoa(refusal.Code))
	case errors.Is(err, context.Canceled):
		return withoutVerdict(http.StatusServiceUnavailable, reasonGone)
	case errors.Is(err, ErrDisconnected):
		return withoutVerdict(http.StatusServiceUnavailable, reasonAway)
	case errors.Is(err, context.DeadlineExceeded):
		return withoutVerdict(http.StatusServiceUnavailable, reasonLate)
	}
	return withoutVerdict(http.StatusServiceUnavailable, reasonFailed)
}
