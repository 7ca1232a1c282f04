package macaroond

import (
	"regexp"
	"strconv"
	"strings"
	"time"
)

var (
	timeText = regexp.MustCompile(`^([0-9]{4})-([0-9]{2})-([0-9]{2})T([0-9]{2}):([0-9]{2})(?::([0-9]{2}))?Z?$`)
	// What looks like a bound of time.
	nearBound = regexp.MustCompile(`^[Tt][Ii][Mm][Ee] ?[<>]`)
	// An equals sign behind a name of which gateways tell facts, or behind one space more.
	signed = regexp.MustCompile(`^(?:method|path|host|scheme|ip)( ?=)`)
)

const under = "path under /"

// WithWarnings says what is called with each line that tells of a caveat of a new token
// which can hardly hold: by Mint and the attenuates, whose token comes all the same.
func WithWarnings(warn func(string)) Option {
	return func(c *Client) { c.warn = warn }
}

// Doubts tells which of these caveats can hardly hold at a moment, a line for each, by the
// rules of clients/README.md. A caveat is taken whatever it says.
func Doubts(at time.Time, caveats ...string) (told []string) {
	seen := map[string]bool{}
	for _, caveat := range caveats {
		if words := doubt(caveat, seen[caveat], at.Unix()); words != "" {
			told = append(told, "a caveat "+words+": "+shown(caveat))
		}
		seen[caveat] = true
	}
	return told
}

// warnOf warns of caveats that can hardly hold.
func (c *Client) warnOf(caveats []string) {
	if c.warn == nil {
		return
	}
	for _, told := range Doubts(time.Now(), caveats...) {
		c.warn(told)
	}
}

// doubt gives the first doubt about a caveat at a moment, or nothing.
func doubt(caveat string, isRepeated bool, moment int64) string {
	limit, isLimit := boundIn("time < ", caveat)
	_, isSince := boundIn("time >= ", caveat)
	switch {
	case nearBound.MatchString(caveat) && !isLimit && !isSince:
		return "is no bound of time, and holds only as a fact"
	case isLimit && limit <= moment:
		return "is a time limit that has passed, and holds only as a fact"
	case strings.HasPrefix(caveat, under) && strings.HasSuffix(caveat, "/") && caveat != under:
		return "ends in a slash, and no path is under it"
	case isMisspaced(caveat):
		return "has not one space on each side of its equals sign"
	case isRepeated:
		return "stands there twice"
	}
	return ""
}

// isMisspaced tells whether an equals sign stands behind a name of which gateways tell facts,
// but not with one space on each side.
func isMisspaced(caveat string) bool {
	found := signed.FindStringSubmatchIndex(caveat)
	return found != nil && !strings.HasPrefix(caveat[found[2]:], " = ")
}

// boundIn gives the second since 1970 of a bound of time that begins so (docs/FORMATS.md).
func boundIn(front, caveat string) (int64, bool) {
	if !strings.HasPrefix(caveat, front) {
		return 0, false
	}
	spelled := timeText.FindStringSubmatch(caveat[len(front):])
	if spelled == nil {
		return 0, false
	}
	var parts [6]int
	for at, text := range spelled[1:] {
		parts[at], _ = strconv.Atoi(text)
	}
	made := time.Date(parts[0], time.Month(parts[1]), parts[2], parts[3], parts[4], parts[5], 0, time.UTC)
	year, month, day := made.Date()
	hour, minute, second := made.Clock()
	// What is none of the calendar is made another time.
	isWritten := [6]int{year, int(month), day, hour, minute, second} == parts
	return made.Unix(), isWritten
}
