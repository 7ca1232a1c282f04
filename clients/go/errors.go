package macaroond

import (
	"errors"
	"fmt"
)

// What a call returns that is neither a token nor a verdict; to be looked for with
// errors.Is, since the error itself says more.
var (
	// ErrDisconnected tells that there is no connection, or that it ended before the reply came.
	ErrDisconnected = errors.New("macaroond: disconnected")
	// ErrBadRequest tells that what was asked can't be told in a request: a field is too long, or there are too many.
	ErrBadRequest = errors.New("macaroond: what was asked is no request")
	// ErrUnknownKey tells that the daemon has no key of this name.
	ErrUnknownKey = errors.New("macaroond: the key file has no key of this name")
	// ErrBadToken tells that the bytes are no token, or that the token that was asked for would pass a limit.
	ErrBadToken = errors.New("macaroond: bad token")
	// ErrNotAllowed tells that the daemon's socket doesn't allow this request.
	ErrNotAllowed = errors.New("macaroond: the socket does not allow this request")
	// ErrNotPlain tells that servers may read a path as another one than it looks.
	ErrNotPlain = errors.New("macaroond: the path is not plain")
	// ErrNoClock tells that the daemon's clock tells no moment: a verify has to give one.
	ErrNoClock = errors.New("macaroond: the clock tells no moment")
)

// The numbers of replies that are told apart here.
const (
	codeGranted      = 0
	codeToken        = 1
	codeGrantedTo    = 3
	codeBadRequest   = 16
	codeFrameTooLong = 17
	codeUnknownKey   = 18
	codeTransport    = 19
	codeMalformed    = 20
	codeThirdParty   = 21
	codeLimit        = 22
	codeBadSignature = 23
	codeUnsatisfied  = 24
	codeLocation     = 26
	codeNotAllowed   = 27
	codeNoClock      = 28
	codeRevoked      = 29
)

// A refusal in words, and the error that it counts as outside of a verdict.
type refusal struct {
	reason string
	class  error
}

var refusals = map[int]refusal{
	codeBadRequest:   {"the payload is no request", ErrBadRequest},
	codeFrameTooLong: {"the request is too long", ErrBadRequest},
	codeUnknownKey:   {"the key file has no key of this name", ErrUnknownKey},
	codeTransport:    {"the token is neither a bare form nor base64 text", ErrBadToken},
	codeMalformed:    {"the bytes are in no form of a token", ErrBadToken},
	codeThirdParty:   {"a caveat of the token is third-party", ErrBadToken},
	codeLimit:        {"a limit is passed", ErrBadToken},
	codeBadSignature: {"the key does not give the signature of the token", nil},
	codeUnsatisfied:  {"a caveat is not satisfied", nil},
	codeLocation:     {"a first-party caveat of the token has a location", ErrBadToken},
	codeNotAllowed:   {"the socket does not allow this request", ErrNotAllowed},
	codeNoClock:      {"the clock tells no moment", ErrNoClock},
	codeRevoked:      {"the token was taken back", nil},
}

// RefusedError is a refusal that is no verdict, or what a client itself finds wrong
// with a request or a token. By errors.Is it is one of the errors above.
type RefusedError struct {
	// Code is the number of the refusal (docs/FORMATS.md).
	Code   int
	reason string
}

func refused(code int) *RefusedError {
	why, isKnown := refusals[code]
	if !isKnown {
		why.reason = fmt.Sprintf("refused with the number %d", code)
	}
	return &RefusedError{code, why.reason}
}

func badRequest(format string, values ...any) *RefusedError {
	return &RefusedError{codeBadRequest, fmt.Sprintf(format, values...)}
}

// Error tells the refusal in words.
func (e *RefusedError) Error() string { return "macaroond: " + e.reason }

// Is tells whether the refusal is of this class.
func (e *RefusedError) Is(class error) bool {
	return class != nil && refusals[e.Code].class == class
}

// disconnected is an ErrDisconnected that says why.
func disconnected(format string, values ...any) error {
	return fmt.Errorf("%w: %s", ErrDisconnected, fmt.Sprintf(format, values...))
}

// unconnectedError is the end of a context that came before a connection did. It is an
// ErrDisconnected too.
type unconnectedError struct {
	path  string
	cause error
}

func (e *unconnectedError) Error() string {
	return fmt.Sprintf("macaroond: there is no connection to %s: %v", e.path, e.cause)
}

func (e *unconnectedError) Unwrap() error { return e.cause }

func (e *unconnectedError) Is(class error) bool { return class == ErrDisconnected }
