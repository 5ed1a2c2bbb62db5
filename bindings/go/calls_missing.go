//go:build !cgo

package argon2

// The build stops here. All other files need cgo too, so this is the only error that the compiler prints.
const _ int = "argon2 needs cgo and a C compiler: set CGO_ENABLED=1 and CC"
