// What docs/examples/log_in.go answers to each kind of login. Its Hasher has one place here, so that a login which does
// not leave the place makes all later ones busy.
package main

import (
	"context"
	"log"
	"net/http"
	"net/http/httptest"
	"net/url"
	"strings"
	"testing"

	"vemkuorl.example/proved-argon2/argon2"
)

// store keeps the stored hash of each user, and what was saved last.
type store struct {
	known map[string]argon2.Stored
	saved argon2.Stored
}

func (s *store) Find(name string) (argon2.Stored, bool) {
	found, isKnown := s.known[name]
	return found, isKnown
}

func (s *store) Save(name string, old, updated argon2.Stored) {
	if old == s.known[name] {
		s.saved = updated
	}
}

func must[T any](value T, err error) T {
	if err != nil {
		panic(err)
	}
	return value
}

// post returns the status of a form.
func post(ctx context.Context, handler http.Handler, method, form string) int {
	answer, request := httptest.NewRecorder(), httptest.NewRequest(method, "/?"+form, strings.NewReader(form))
	request.Header.Set("Content-Type", "application/x-www-form-urlencoded")
	handler.ServeHTTP(answer, request.WithContext(ctx))
	return answer.Code
}

func TestLogins(t *testing.T) {
	var lines strings.Builder
	log.SetOutput(&lines)
	older := argon2.OWASP5()
	older.Secret = []byte("old key")
	long := strings.Repeat("a", longest+1)
	encoded, ofLong := must(argon2.Hash([]byte("password"), older)), must(argon2.Hash([]byte(long), older))
	peppers := must(argon2.NewPeppers(must(argon2.NewHasher(argon2.OWASP2(), 1, 0)),
		argon2.Pepper{ID: "2026", Key: []byte("new key")}, argon2.Pepper{ID: "2025", Key: []byte("old key")}))
	users := &store{known: map[string]argon2.Stored{
		"x\nlogged in": {KeyID: "2025", Encoded: encoded}, "unreadable": {KeyID: "2025", Encoded: encoded[1:]},
		"unpeppered": {Encoded: encoded}, "long": {KeyID: "2025", Encoded: ofLong}}}
	handler := logIn(peppers, users)
	left, leave := context.WithCancel(context.Background())
	leave()
	for i, c := range []struct {
		ctx            context.Context
		user, password string
		status         int
	}{
		{left, "x\nlogged in", "password", 503}, {left, "nobody", "password", 503},
		{nil, "x\nlogged in", "Password", 401}, {nil, "nobody", "password", 401},
		{nil, "unreadable", "password", 503}, {nil, "unpeppered", "password", 503},
		{nil, "long", long, 401}, {nil, "nobody", strings.Repeat("\xff", longest), 401},
		{nil, "", "", 401}, {nil, "nobody", strings.Repeat("a", 5000), 400}, {nil, "x\nlogged in", "password", 204},
	} {
		if c.ctx == nil {
			c.ctx = context.Background()
		}
		form := url.Values{"user": {c.user}, "password": {c.password}}.Encode()
		if status := post(c.ctx, handler, "POST", form); status != c.status {
			t.Errorf("%d, %.20q %.20q: %d", i, c.user, c.password, status)
		}
	}
	for method, form := range map[string]string{"POST": "user=nobody&password=%zz", "GET": "user=nobody"} {
		if status := post(context.Background(), handler, method, form); status != 400 {
			t.Error(method, status)
		}
	}
	if users.saved.KeyID != "2026" || !strings.Contains(users.saved.Encoded, "m=19456,t=2,p=1") {
		t.Error(users.saved)
	}
	for _, line := range strings.Split(strings.TrimSpace(lines.String()), "\n") {
		if strings.Contains(line, "$argon2") || strings.Count(line, "/") != 2 {
			t.Error(line)
		}
	}
}
