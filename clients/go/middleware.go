package macaroond

import (
	"context"
	"log"
	"net/http"
	"regexp"
	"strings"
	"time"
)

// How long a guard waits for a verdict where nothing else is said.
const guardTimeout = time.Second

var requestID = regexp.MustCompile(`\A[A-Za-z0-9._-]{1,40}\z`)

type identifierKey struct{}

// GuardOption is a wish about a guard.
type GuardOption func(*guard)

// GuardTimeout says how long a verdict is waited for at most: a second where it isn't said,
// and never longer than the client waits.
func GuardTimeout(timeout time.Duration) GuardOption {
	return func(g *guard) { g.timeout = timeout }
}

// GuardLog says where each refusal is logged: nowhere where it isn't said.
func GuardLog(logger *log.Logger) GuardOption {
	return func(g *guard) { g.logger = logger }
}

// GuardHook says what is called with each request, and with what became of it.
func GuardHook(hook func(*http.Request, Judgement)) GuardOption {
	return func(g *guard) { g.hook = hook }
}

// RequireMacaroon is Guard with facts that can be told of each request; facts may be nil.
func RequireMacaroon(
	client *Client, key string, facts func(*http.Request) []string, options ...GuardOption,
) func(http.Handler) http.Handler {
	return Guard(client, key, func(r *http.Request) ([]string, error) {
		if facts == nil {
			return nil, nil
		}
		return facts(r), nil
	}, options...)
}

// Guard gives a guard that lets those requests through to a handler whose token is
// granted, given what facts tells of the request, as RequestFacts does. The token stands in
// the one field Authorization, as `Macaroon TOKEN` or `Bearer TOKEN`. The handler finds the
// token's identifier by Identifier.
//
// A request without a token, with two or with a bad one is answered 401, one that a caveat
// forbids or whose facts are an ErrNotPlain 403 with Macaroon-Reason, one whose facts no
// request can tell 400, and each one 503 while there is no verdict. While the daemon is known
// to be away, requests are refused at once.
func Guard(
	client *Client, key string, facts func(*http.Request) ([]string, error), options ...GuardOption,
) func(http.Handler) http.Handler {
	made := &guard{client: client, key: key, facts: facts, timeout: guardTimeout}
	for _, option := range options {
		option(made)
	}
	made.breaker = newBreaker(made.timeout)
	return func(next http.Handler) http.Handler {
		return http.HandlerFunc(func(w http.ResponseWriter, r *http.Request) { made.serve(next, w, r) })
	}
}

// guard is what one Guard knows.
type guard struct {
	client  *Client
	key     string
	facts   func(*http.Request) ([]string, error)
	timeout time.Duration
	logger  *log.Logger
	hook    func(*http.Request, Judgement)
	breaker *breaker
}

// serve lets a request through, or refuses it.
func (g *guard) serve(next http.Handler, w http.ResponseWriter, r *http.Request) {
	found := g.judge(r)
	if g.logger != nil && !found.Granted() {
		g.logger.Printf("macaroon refused: %v%s", found, loggedID(r.Header.Values("X-Request-Id")))
	}
	if g.hook != nil {
		g.hook(r, found)
	}
	if !found.Granted() {
		found.refuse(w)
		return
	}
	known := context.WithValue(r.Context(), identifierKey{}, found.Identifier)
	next.ServeHTTP(w, r.WithContext(known))
}

// judge gives what becomes of a request.
func (g *guard) judge(r *http.Request) Judgement {
	brought, isThere := credentialsIn(r.Header.Values("Authorization"))
	if !isThere {
		return withoutToken()
	}
	told, err := g.facts(r)
	if err != nil {
		return failed(err)
	}
	if !g.breaker.allows() {
		return withoutVerdict(http.StatusServiceUnavailable, reasonAway)
	}
	within, end := context.WithTimeout(r.Context(), g.timeout)
	defer end()
	verdict, err := g.client.Verify(within, g.key, brought.token, told...)
	g.breaker.note(err, r.Context())
	if err != nil {
		return failed(err)
	}
	return judged(verdict, brought.scheme)
}

// loggedID gives what the log has of the one X-Request-Id field of a request, where that is an
// id which the daemon logs too: a signature has more letters, so none is a token.
func loggedID(fields []string) string {
	if len(fields) != 1 || !requestID.MatchString(fields[0]) {
		return ""
	}
	return " id=" + fields[0]
}

// Identifier gives the identifier of the token by which a request was let through.
func Identifier(ctx context.Context) (string, bool) {
	identifier, isThere := ctx.Value(identifierKey{}).(string)
	return identifier, isThere
}

// credentials is the token of a request, and the scheme by which it came.
type credentials struct {
	scheme, token string
}

// credentialsIn gives what the one Authorization field of a request brings; of two, others
// may have looked at the other one.
func credentialsIn(fields []string) (credentials, bool) {
	if len(fields) != 1 {
		return credentials{}, false
	}
	scheme, token, _ := strings.Cut(strings.TrimSpace(fields[0]), " ")
	token = strings.TrimSpace(token)
	for _, known := range []string{"Macaroon", "Bearer"} {
		if strings.EqualFold(scheme, known) && token != "" {
			return credentials{known, token}, true
		}
	}
	return credentials{}, false
}
