//go:build cgo

package argon2

import "errors"

// Error is the number of an error of the library. The constants below are values for [errors.Is]. A wrong password is
// no error.
type Error uint32

// The errors of the library, with their reasons.
const (
	ErrOutputTooShort   Error = 1   // the hash is shorter than 4 bytes
	ErrOutputTooLong    Error = 2   // the hash is longer than 2^32 - 1 bytes
	ErrPwdTooShort      Error = 3   // never returned
	ErrPwdTooLong       Error = 4   // the password is longer than 2^32 - 1 bytes
	ErrSaltTooShort     Error = 5   // the salt is shorter than 8 bytes
	ErrSaltTooLong      Error = 6   // the salt is longer than 2^32 - 1 bytes
	ErrAdTooShort       Error = 7   // never returned
	ErrAdTooLong        Error = 8   // the associated data is longer than 2^32 - 1 bytes
	ErrSecretTooShort   Error = 9   // never returned
	ErrSecretTooLong    Error = 10  // the secret is longer than 2^32 - 1 bytes
	ErrTimeTooSmall     Error = 11  // there is no pass
	ErrTimeTooLarge     Error = 12  // never returned
	ErrMemoryTooLittle  Error = 13  // there are fewer than 8 KiB a lane
	ErrMemoryTooMuch    Error = 14  // never returned
	ErrLanesTooFew      Error = 15  // there is no lane
	ErrLanesTooMany     Error = 16  // there are more than 2^24 - 1 lanes
	ErrIncorrectType    Error = 17  // no variant has this number
	ErrIncorrectVersion Error = 18  // no version has this number
	ErrDecodingFail     Error = 19  // the string is not an encoded hash
	ErrOutOfMemory      Error = 20  // memory could not be allocated
	ErrWorkerRefused    Error = 21  // never returned
	ErrTooCostly        Error = 69  // the encoded hash is above the limits
	ErrNoRandomBytes    Error = 129 // the system had no random bytes for a salt
	ErrOldProcessor     Error = 131 // the library has no build for this processor
)

// Errors of this package.
var (
	// ErrBusy means that as many callers compute and wait as the [Hasher] allows: answer with HTTP status 503.
	ErrBusy = errors.New("argon2: too many hashes are computed at a time")
	// ErrNoHasher means that [NewHasher] or [NewPeppers] did not make the [Hasher] or the [Peppers]: it is a zero value.
	ErrNoHasher = errors.New("argon2: the Hasher or Peppers is a zero value")
	// ErrUnknownPepper means that no pepper has the ID of a stored hash.
	ErrUnknownPepper = errors.New("argon2: there is no pepper with this ID")
	// ErrInvalidPeppers means that there is no pepper, an ID or a key is empty, or two peppers have the same ID.
	ErrInvalidPeppers = errors.New("argon2: no pepper, an empty ID or key, or two peppers with the same ID")
	// ErrTooSlow means that even the weakest settings for passwords take longer than [Tune] allows.
	ErrTooSlow = errors.New("argon2: a hash with the least settings takes longer")
)
