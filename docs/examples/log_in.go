// A login in a service over net/http, which docs/USE.md describes.
package main

import (
	"log"
	"net/http"

	"vemkuorl.example/proved-argon2/argon2"
)

// longest is the length of the longest password, in bytes.
const longest = 1024

// users is the store of the service.
type users interface {
	// Find returns what is stored for a user, and whether there is such a user.
	Find(name string) (stored argon2.Stored, isKnown bool)
	// Save replaces old by updated only if old is still stored: the user may have changed the password since Find.
	Save(name string, old, updated argon2.Stored)
}

// logIn returns a handler that lets a user in. Make the peppers with argon2.NewHasher(argon2.OWASP2(), 2, 64), so that
// two logins compute at a time and 64 wait. If the client leaves, the context of its request ends and stops the hash.
func logIn(peppers *argon2.Peppers, users users) http.HandlerFunc {
	return func(w http.ResponseWriter, r *http.Request) {
		r.Body = http.MaxBytesReader(w, r.Body, 3*longest+1024) // a byte of a form may be written as three
		if r.Method != http.MethodPost || r.ParseForm() != nil {
			log.Print("no form, or too long a form")
			w.WriteHeader(http.StatusBadRequest)
			return
		}
		name, password := r.PostForm.Get("user"), []byte(r.PostForm.Get("password"))
		if len(password) > longest {
			log.Printf("too long a password: %q", name)
			w.WriteHeader(http.StatusUnauthorized)
			return
		}
		var matches bool
		var updated *argon2.Stored
		var err error
		stored, isKnown := users.Find(name)
		if isKnown {
			matches, updated, err = peppers.VerifyAndUpdate(r.Context(), stored, password)
		} else {
			matches, err = peppers.VerifyUnknown(r.Context(), password)
		}
		if updated != nil {
			users.Save(name, stored, *updated)
		}
		switch {
		case err != nil:
			log.Printf("error: %q: %v", name, err)
			w.Header().Set("Retry-After", "1")
			w.WriteHeader(http.StatusServiceUnavailable)
		case matches:
			log.Printf("logged in: %q", name)
			w.WriteHeader(http.StatusNoContent)
		default:
			log.Printf("wrong user or password: %q", name)
			w.WriteHeader(http.StatusUnauthorized)
		}
	}
}
