//go:build go1.24

package argon2

// The library calls no function of Go, and keeps no pointer. So the arguments need not escape to Go's heap.

// #cgo noescape go_argon2_hash
// #cgo nocallback go_argon2_hash
// #cgo noescape go_argon2_verify
// #cgo nocallback go_argon2_verify
// #cgo noescape go_argon2_renew
// #cgo nocallback go_argon2_renew
// #cgo noescape go_argon2_verify_unknown
// #cgo nocallback go_argon2_verify_unknown
// #cgo noescape go_argon2_tune
// #cgo nocallback go_argon2_tune
// #cgo noescape proved_argon2_needs_rehash
// #cgo nocallback proved_argon2_needs_rehash
// #cgo noescape proved_argon2_read
// #cgo nocallback proved_argon2_read
import "C"
