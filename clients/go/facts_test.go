package macaroond

import (
	"encoding/json"
	"errors"
	"net/http"
	"net/http/httptest"
	"net/url"
	"os"
	"reflect"
	"strings"
	"testing"
)

// pathRows gives the table of paths that is for each client and the daemon.
func pathRows(t *testing.T) (rows []struct {
	Target string
	Facts  []string
	Odd    bool
}) {
	content, err := os.ReadFile("../cases/paths.json")
	if err == nil {
		err = json.Unmarshal(content, &rows)
	}
	if err != nil || len(rows) == 0 {
		t.Fatal(len(rows), err)
	}
	return rows
}

func TestPathFacts(t *testing.T) {
	for _, row := range pathRows(t) {
		facts, err := PathFacts(row.Target)
		if !reflect.DeepEqual(facts, row.Facts) || (row.Facts == nil) != errors.Is(err, ErrNotPlain) {
			t.Errorf("of %q the facts are %q, %v", row.Target, facts, err)
		}
		facts, err = StrictPathFacts(row.Target)
		if (row.Facts == nil || row.Odd) != errors.Is(err, ErrNotPlain) ||
			err == nil && !reflect.DeepEqual(facts, row.Facts) {
			t.Errorf("of %q the facts are %q, %v, read strictly", row.Target, facts, err)
		}
		if row.Target == "" {
			continue
		}
		facts, err = RequestFacts(&http.Request{Method: "PUT", RequestURI: row.Target, URL: &url.URL{Path: "/x"}})
		if (row.Facts == nil) != errors.Is(err, ErrNotPlain) ||
			row.Facts != nil && !reflect.DeepEqual(facts, append([]string{"method = PUT"}, row.Facts...)) {
			t.Errorf("of a request for %q the facts are %q, %v", row.Target, facts, err)
		}
	}
	for _, odd := range []string{"\xc0\xae", "\xc1", "\xe0\x9f\xbf", "\xf0\x8f"} {
		if facts, err := StrictPathFacts("/a/" + odd); !errors.Is(err, ErrNotPlain) {
			t.Errorf("of %q the facts are %q, %v, read strictly", odd, facts, err)
		}
	}
	odd := &http.Request{Method: "GET", RequestURI: "/a;b", URL: &url.URL{Path: "/x"}}
	if facts, err := StrictRequestFacts(odd); !errors.Is(err, ErrNotPlain) {
		t.Errorf("%q, %v", facts, err)
	}
	facts, err := RequestFacts(&http.Request{Method: "GET", URL: &url.URL{Path: "/ä"}})
	if err != nil || facts[2] != "path = /%C3%A4" {
		t.Errorf("%q, %v", facts, err)
	}
}

func TestMethodFacts(t *testing.T) {
	var rows map[string][]string
	content, err := os.ReadFile("../cases/methods.json")
	if err == nil {
		err = json.Unmarshal(content, &rows)
	}
	if err != nil || len(rows) == 0 {
		t.Fatal(len(rows), err)
	}
	for method, due := range rows {
		facts, err := RequestFacts(&http.Request{Method: method, RequestURI: "/a", URL: &url.URL{Path: "/a"}})
		if err != nil || !reflect.DeepEqual(facts, append(due, "path = /a", "path under /", "path under /a")) {
			t.Errorf("of %s the facts are %q, %v", method, facts, err)
		}
	}
}

// A path that isn't plain is forbidden, whatever token comes.
func TestGuardOfPaths(t *testing.T) {
	client := dialled(t, server(t, grants))
	guarded := Guard(client, "bank", RequestFacts)(http.NotFoundHandler())
	token := "Bearer AgIFYWxpY2UAAAYg" + strings.Repeat("A", 43)
	for _, one := range []struct {
		target, header string
		status         int
	}{{"/a", token, 404}, {"/a/../b", token, 403}, {"/a/../b", "", 401}} {
		asked := httptest.NewRequest("GET", "/", nil)
		asked.RequestURI = one.target
		asked.Header.Set("Authorization", one.header)
		came := httptest.NewRecorder()
		guarded.ServeHTTP(came, asked)
		if came.Code != one.status {
			t.Errorf("%s is answered %d", one.target, came.Code)
		}
	}
}
