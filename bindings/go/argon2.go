//go:build cgo

// Package argon2 hashes and verifies passwords with Argon2 (RFC 9106). Proved code computes the hashes, except the
// compression on AVX-512 and ARM64, which is checked by a tool. The C driver and this package are tested. The package
// contains the library: a program needs only cgo and a C compiler.
//
// A service makes one [Hasher], which limits how many hashes are computed at a time. Programs that need no such limit
// call [Hash], [Verify] and [VerifyAndUpdate]. [IDKey] and [Key] have the signatures of
// golang.org/x/crypto/argon2.
//
// # Memory
//
// The package makes no copy of a password, a secret or associated data, except that [NewPeppers] copies its keys. The
// library clears the memory of a hash before a call returns.
//
// # Threads
//
// A call of C occupies an operating-system thread until it returns. The library starts at most one thread for each
// further lane, and none for a small hash. See [Hasher].
package argon2

import (
	"crypto/rand"
	"fmt"
)

// Hash hashes a password with a new random salt, and returns the encoded hash (PHC string), which you store.
func Hash(password []byte, settings Settings) (encoded string, err error) {
	return run{settings: settings}.hash(password)
}

// HashRaw returns the tag (raw hash) of settings.HashLength bytes, for example to derive a key. settings.SaltLength has
// no effect: the salt is used as it is.
func HashRaw(password, salt []byte, settings Settings) ([]byte, error) {
	return run{settings: settings}.hashRaw(password, salt)
}

// Verify returns whether a password matches an encoded hash that is within [DefaultLimits]. An error means that nothing
// was compared: let nobody in.
func Verify(encoded string, password []byte) (matches bool, err error) {
	return run{limits: DefaultLimits()}.verify(encoded, password)
}

// VerifyAndUpdate verifies a password as [Verify] does, with the secret and the data of the settings, and within their
// limits ([LimitsFor]). If the password matches and [NeedsRehash] returns true, updated is the new encoded hash to
// store. If the new hash fails, matches is still true, and updated is empty.
func VerifyAndUpdate(encoded string, password []byte, settings Settings) (matches bool, updated string, err error) {
	r := run{settings: settings, limits: LimitsFor(settings)}
	return r.verifyAndUpdate(encoded, password, nil)
}

// VerifyUnknown is for a login whose user does not exist. It takes as long as verifying a hash with these settings, and
// never matches. Without it, an attacker can measure which users exist.
func VerifyUnknown(password []byte, settings Settings) (matches bool, err error) {
	return run{settings: settings}.verifyUnknown(password)
}

// Key derives a key with Argon2i, as golang.org/x/crypto/argon2 does. It panics as [IDKey] does.
func Key(password, salt []byte, time, memory uint32, threads uint8, keyLen uint32) []byte {
	return deriveKey(I, password, salt, time, memory, threads, keyLen)
}

// IDKey derives a key with Argon2id, as golang.org/x/crypto/argon2 does. Both panic if time or threads is 0. IDKey also
// panics with an [Error] if memory runs out, or if there are fewer than 8 KiB of memory per thread, 8 bytes of salt or
// 4 bytes of key, which x/crypto accepts.
func IDKey(password, salt []byte, time, memory uint32, threads uint8, keyLen uint32) []byte {
	return deriveKey(ID, password, salt, time, memory, threads, keyLen)
}

func deriveKey(v Variant, password, salt []byte, time, memory uint32, threads uint8, keyLen uint32) []byte {
	if time < 1 {
		panic("argon2: number of rounds too small")
	}
	if threads < 1 {
		panic("argon2: parallelism degree too low")
	}
	key, err := HashRaw(password, salt, Settings{
		Variant: v, Version: Version, Memory: memory, Time: time, Lanes: uint32(threads), HashLength: keyLen,
	})
	if err != nil {
		panic(err)
	}
	return key
}

// run makes calls with settings and limits.
type run struct {
	settings Settings
	limits   Limits
	buffers  *buffers // what the calls compute in, or nil: then each allocates its own memory
	stop     *int32   // stops a call once it is not 0, or nil: then nothing stops it
}

func (r run) hash(password []byte) (string, error) {
	if err := r.check(password, uint64(r.settings.SaltLength)); err != nil {
		return "", err
	}
	salt := make([]byte, r.settings.SaltLength)
	if _, err := rand.Read(salt); err != nil {
		return "", fmt.Errorf("%w: %v", ErrNoRandomBytes, err)
	}
	encoded := make([]byte, r.settings.encodedLength()+1)
	if err := r.compute(password, salt, true, encoded); err != nil {
		return "", err
	}
	return string(encoded[:len(encoded)-1]), nil
}

func (r run) hashRaw(password, salt []byte) ([]byte, error) {
	if err := r.check(password, uint64(len(salt))); err != nil {
		return nil, err
	}
	tag := make([]byte, r.settings.HashLength)
	if err := r.compute(password, salt, false, tag); err != nil {
		return nil, err
	}
	return tag, nil
}

func (r run) verify(encoded string, password []byte) (matches bool, err error) {
	switch err = r.compare(encoded, password); err {
	case mismatch:
		return false, nil
	case needsNew: // (the password matches)
		return true, nil
	default:
		return err == nil, err
	}
}

// verifyAndUpdate verifies with an old pepper, if the stored hash has one. It computes a new hash with the settings if
// the stored hash has an old pepper or other settings.
func (r run) verifyAndUpdate(encoded string, password []byte, old *Pepper) (matches bool, updated string, err error) {
	secret, newSecret := r.settings.Secret, []byte(nil)
	if old != nil {
		secret, newSecret = old.Key, secret
	}
	switch updated, err = r.renew(encoded, password, secret, newSecret); err {
	case mismatch:
		return false, "", nil
	case needsNew:
		return true, updated, nil
	default:
		return err == nil, "", err
	}
}

func (r run) verifyUnknown(password []byte) (matches bool, err error) {
	if err = r.compareUnknown(password); err == mismatch {
		return false, nil
	}
	return false, err
}
