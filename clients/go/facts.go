package macaroond

import (
	"net/http"
	"regexp"
	"strings"
)

// The limits of a path that facts are told of.
const (
	pathMax    = 4_096
	slashesMax = 64
)

// An empty segment, a backslash, an escape of a dot, a slash or a backslash, or a segment of
// one dot or two.
var otherwiseRead = regexp.MustCompile(`(?i)//|\\|%2e|%2f|%5c|/\.\.?(/|$)`)

// What some servers end a segment at, drop, or read in a way of their own: a semicolon, an
// escape of it, of a zero byte or of a tab, and `%u`; and an escape of a character of UTF-8 in
// more bytes than it needs.
var oddlyRead = regexp.MustCompile(`(?i);|%3b|%00|%09|%u|%c[01]|%e0%[89]|%f0%8`)

// RequestFacts gives the method and the path of a request, for Guard; or an ErrNotPlain.
func RequestFacts(r *http.Request) ([]string, error) {
	return requestFacts(r, PathFacts)
}

// StrictRequestFacts is RequestFacts with StrictPathFacts.
func StrictRequestFacts(r *http.Request) ([]string, error) {
	return requestFacts(r, StrictPathFacts)
}

func requestFacts(r *http.Request, pathFacts func(string) ([]string, error)) ([]string, error) {
	target := r.RequestURI
	if target == "" {
		target = r.URL.EscapedPath()
	}
	facts, err := pathFacts(target)
	if err != nil {
		return nil, err
	}
	return append(methodFacts(r.Method), facts...), nil
}

// methodFacts gives `method = GET`, and `method is safe` where it asks for no change
// (RFC 9110, section 9.2.1); methods are told apart by case.
func methodFacts(method string) []string {
	facts := []string{"method = " + method}
	switch method {
	case "GET", "HEAD", "OPTIONS", "TRACE":
		return append(facts, "method is safe")
	}
	return facts
}

// PathFacts gives `path = /a/b`, and `path under ..` for each step of the path: `/`, `/a` and
// `/a/b`. The target is what the request's line has, up to a `?` and with its escapes:
// `/%C3%A4`, and not `/ä`. A path that isn't plain is an ErrNotPlain. These are the rules of
// the daemon's source `forwarded` (docs/HTTP.md).
func PathFacts(target string) ([]string, error) {
	path, _, _ := strings.Cut(target, "?")
	if !isPlain(path) {
		return nil, ErrNotPlain
	}
	facts := []string{"path = " + path, "path under /"}
	for end := 2; end <= len(path); end++ {
		if path[end-1] != '/' && (end == len(path) || path[end] == '/') {
			facts = append(facts, "path under "+path[:end])
		}
	}
	return facts, nil
}

// StrictPathFacts is PathFacts where paths are read strictly, as by `--http-strict-paths`: one
// that some servers read in a way of their own isn't plain either.
func StrictPathFacts(target string) ([]string, error) {
	path, _, _ := strings.Cut(target, "?")
	if oddlyRead.MatchString(path) || hasOverlong(path) {
		return nil, ErrNotPlain
	}
	return PathFacts(target)
}

// hasOverlong tells whether a character of UTF-8 has more bytes than it needs (RFC 3629, section 3).
func hasOverlong(path string) bool {
	for at := 0; at < len(path); at++ {
		next := byte(0)
		if at+1 < len(path) {
			next = path[at+1]
		}
		switch first := path[at]; {
		case first == 0xC0, first == 0xC1,
			first == 0xE0 && 0x80 <= next && next <= 0x9F,
			first == 0xF0 && 0x80 <= next && next <= 0x8F:
			return true
		}
	}
	return false
}

// isPlain tells whether each server reads the path alike.
func isPlain(path string) bool {
	isWithin := len(path) <= pathMax && strings.Count(path, "/") <= slashesMax
	return strings.HasPrefix(path, "/") && isWithin && !otherwiseRead.MatchString(path)
}
