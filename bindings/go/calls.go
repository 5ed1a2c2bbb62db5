package argon2

// This file makes the calls of the C library. It has all cgo and unsafe code of the module; calls_go124.go has only cgo
// directives. The library is passed pointers to the bytes of slices, without copies, and keeps none of them.
//
// An archive contains the library for each system below. For others, and with the tag, cgo compiles the C files of this
// folder, which contain the library as C.

/*
#cgo linux,amd64,!proved_argon2_portable LDFLAGS: ${SRCDIR}/libproved_argon2_linux_amd64.a
#cgo linux,arm64,!proved_argon2_portable LDFLAGS: ${SRCDIR}/libproved_argon2_linux_arm64.a
#cgo windows,amd64,!proved_argon2_portable LDFLAGS: ${SRCDIR}/libproved_argon2_windows_amd64.a
#cgo windows LDFLAGS: -ladvapi32
#cgo !windows LDFLAGS: -lpthread
#include "proved_argon2.h"

#define PASS(bytes) (bytes).at, (bytes).length

typedef struct {
	uint8_t *at;
	size_t length;
} go_bytes;

// Stops a call once the number, which another Go thread writes, is not 0.
static int must_stop(void *number, uint64_t done, uint64_t all)
{
	return __atomic_load_n((const int32_t *)number, __ATOMIC_RELAXED);
}

// Go may not pass a pointer to memory that contains pointers, as the options do. So these calls are passed the options
// by value. options.arg points to the number that stops the call, or is null: then nothing calls back.

static uint32_t go_argon2_hash(proved_argon2_options options, go_bytes pwd, go_bytes salt, go_bytes secret, go_bytes ad,
	proved_argon2_settings settings, _Bool is_encoded, go_bytes out)
{
	options.progress = options.arg == NULL ? NULL : must_stop;
	if (is_encoded) {
		return proved_argon2_hash_encoded_with(&options, PASS(pwd), PASS(salt), PASS(secret), PASS(ad), &settings,
			(char *)out.at, out.length);
	}
	return proved_argon2_hash_raw_with(&options, PASS(pwd), PASS(salt), PASS(secret), PASS(ad), &settings, PASS(out));
}

static uint32_t go_argon2_verify(
	proved_argon2_options options, go_bytes text, go_bytes pwd, go_bytes secret, go_bytes ad)
{
	options.progress = options.arg == NULL ? NULL : must_stop;
	return proved_argon2_verify_encoded_with(
		&options, (const char *)text.at, text.length, PASS(pwd), PASS(secret), PASS(ad));
}

static uint32_t go_argon2_renew(proved_argon2_options options, go_bytes text, go_bytes pwd, go_bytes pepper,
	go_bytes new_pepper, go_bytes ad, go_bytes new_text)
{
	options.progress = options.arg == NULL ? NULL : must_stop;
	return proved_argon2_password_renew(&options, (const char *)text.at, text.length, PASS(pwd), PASS(pepper),
		PASS(new_pepper), PASS(ad), (char *)new_text.at, new_text.length);
}

static uint32_t go_argon2_verify_unknown(
	proved_argon2_options options, proved_argon2_settings settings, go_bytes pwd, go_bytes secret)
{
	options.progress = options.arg == NULL ? NULL : must_stop;
	return proved_argon2_password_verify_unknown(&options, &settings, PASS(pwd), PASS(secret));
}

static uint32_t go_argon2_tune(proved_argon2_options options, proved_argon2_settings most, uint64_t nanoseconds,
	proved_argon2_tuning *tuning)
{
	options.progress = options.arg == NULL ? NULL : must_stop;
	return proved_argon2_tune(&options, &most, nanoseconds, tuning);
}
*/
import "C"

import (
	"math"
	"runtime"
	"strings"
	"sync/atomic"
	"time"
	"unsafe"
)

// Numbers that the library returns and that this package handles.
const (
	mismatch = Error(C.PROVED_ARGON2_MISMATCH)
	needsNew = Error(C.PROVED_ARGON2_NEEDS_REHASH)
	stopped  = Error(C.PROVED_ARGON2_STOPPED)
)

// idle is how long the library keeps a buffer that no call uses.
const idle = 10 * time.Second

// mostBuffers is how many buffers the library keeps at most.
const mostBuffers = C.PROVED_ARGON2_MAX_BUFFERS

// check returns the error of a hash with these settings, if any. Call it before you allocate a salt or a tag: both may
// be huge.
func (r run) check(password []byte, saltLength uint64) error {
	settings := r.settings.c()
	return errorOf(C.proved_argon2_check(&settings, C.uint64_t(len(password)), C.uint64_t(saltLength),
		C.uint64_t(len(r.settings.Secret)), C.uint64_t(len(r.settings.Data))))
}

// encodedLength returns the length of an encoded hash.
func (s Settings) encodedLength() uint64 {
	settings := s.c()
	return uint64(C.proved_argon2_encoded_len(&settings, C.uint32_t(s.SaltLength)))
}

// compute writes the tag, or the encoded hash and then a zero.
func (r run) compute(password, salt []byte, isEncoded bool, out []byte) error {
	s := r.settings
	return r.call(func(options C.proved_argon2_options) C.uint32_t {
		return C.go_argon2_hash(options, pass(password), pass(salt), pass(s.Secret), pass(s.Data), s.c(),
			C._Bool(isEncoded), pass(out))
	})
}

// compare compares a password with an encoded hash. It returns nil if the password matches, or mismatch.
func (r run) compare(encoded string, password []byte) error {
	s, limits := r.settings, r.limits.c()
	return r.call(func(options C.proved_argon2_options) C.uint32_t {
		options.limits = &limits
		return C.go_argon2_verify(options, pass([]byte(encoded)), pass(password), pass(s.Secret), pass(s.Data))
	})
}

// renew does the same for a hash that was made with this secret. If the password matches, and there is a new secret or
// the hash has other settings than the run, it returns a new encoded hash, and needsNew.
func (r run) renew(encoded string, password, secret, newSecret []byte) (updated string, err error) {
	s, settings, limits := r.settings, r.settings.c(), r.limits.c()
	var out []byte // (without room for a hash, the library makes none)
	if r.check(password, uint64(s.SaltLength)) == nil {
		out = make([]byte, s.encodedLength()+1)
	}
	err = r.call(func(options C.proved_argon2_options) C.uint32_t {
		options.limits, options.new_settings, options.new_salt_len = &limits, &settings, C.size_t(s.SaltLength)
		return C.go_argon2_renew(options, pass([]byte(encoded)), pass(password), pass(secret), pass(newSecret),
			pass(s.Data), pass(out))
	})
	if err == needsNew {
		updated = string(out[:len(out)-1])
	}
	return updated, err
}

// compareUnknown takes as long as compare. It returns mismatch, or the error that prevented a hash.
func (r run) compareUnknown(password []byte) error {
	return r.call(func(options C.proved_argon2_options) C.uint32_t {
		return C.go_argon2_verify_unknown(options, r.settings.c(), pass(password), pass(r.settings.Secret))
	})
}

// tune searches for settings. It returns ErrTooCostly if there are none.
func (r run) tune(within time.Duration) (Tuning, error) {
	var found C.proved_argon2_tuning
	if within < 0 {
		within = 0
	}
	err := r.call(func(options C.proved_argon2_options) C.uint32_t {
		return C.go_argon2_tune(options, r.settings.c(), C.uint64_t(within), &found)
	})
	tuned := r.settings
	tuned.Memory, tuned.Time = uint32(found.settings.mem_cost), uint32(found.settings.time_cost)
	return Tuning{tuned, time.Duration(found.nanoseconds)}, err
}

// call makes a call with options. No thread starts for a lane that the settings do not have.
func (r run) call(attempt func(C.proved_argon2_options) C.uint32_t) error {
	threads := r.settings.Threads
	if threads == 0 {
		threads = math.MaxUint32
	}
	options := C.proved_argon2_options{
		size: C.sizeof_proved_argon2_options, threads: C.uint32_t(threads), arg: unsafe.Pointer(r.stop)}
	if r.buffers == nil {
		return errorOf(attempt(options))
	}
	options.buffers = r.buffers.kept
	err := errorOf(attempt(options))
	r.buffers.watch()
	return err
}

// buffers are kept buffers of the library.
type buffers struct {
	kept      *C.proved_argon2_buffers
	isWatched int32 // 1 if a timer will free those that are idle
}

// newBuffers makes buffers that are freed once nothing refers to them.
func newBuffers(s Settings, most int) (*buffers, error) {
	if most > mostBuffers {
		most = mostBuffers
	}
	settings := s.c()
	var kept *C.proved_argon2_buffers
	if err := errorOf(C.proved_argon2_buffers_new(&settings, C.uint32_t(most), &kept)); err != nil {
		return nil, err
	}
	b := &buffers{kept: kept}
	runtime.SetFinalizer(b, func(b *buffers) { C.proved_argon2_buffers_free(b.kept) })
	return b, nil
}

// watch has a timer free what is idle, after a call that used a buffer.
func (b *buffers) watch() { b.watchAfter(idle) }

func (b *buffers) watchAfter(pause time.Duration) {
	if atomic.SwapInt32(&b.isWatched, 1) == 0 {
		time.AfterFunc(pause, b.freeIdle)
	}
}

// freeIdle frees the buffers that have been idle for long enough, and comes back when the next one is due.
func (b *buffers) freeIdle() {
	atomic.StoreInt32(&b.isWatched, 0) // (before it looks: else nobody would watch a buffer that is left meanwhile)
	if milliseconds := C.proved_argon2_buffers_free_idle(b.kept); milliseconds > 0 {
		b.watchAfter(time.Duration(milliseconds) * time.Millisecond)
	}
}

func (s Settings) c() C.proved_argon2_settings {
	if s.Version == 0 {
		s.Version = Version
	}
	return C.proved_argon2_settings{
		variant: C.uint32_t(s.Variant), version: C.uint32_t(s.Version), mem_cost: C.uint32_t(s.Memory),
		time_cost: C.uint32_t(s.Time), lanes: C.uint32_t(s.Lanes), hash_length: C.uint32_t(s.HashLength),
	}
}

// NeedsRehash returns whether an encoded hash was made with another variant, version, memory, time, number of lanes, or
// length of the salt or the hash. Call it after the password has matched.
func NeedsRehash(encoded string, settings Settings) (bool, error) {
	text, today := pass([]byte(encoded)), settings.c()
	characters := (*C.char)(unsafe.Pointer(text.at))
	err := errorOf(C.proved_argon2_needs_rehash(characters, text.length, &today))
	if err == needsNew {
		return true, nil
	}
	if err != nil {
		return false, err
	}
	var stored C.proved_argon2_stored
	err = errorOf(C.proved_argon2_read(characters, text.length, &stored))
	return uint32(stored.salt_length) != settings.SaltLength, err
}

// DefaultLimits returns the limits of the library, which docs/USE.md lists.
func DefaultLimits() Limits { return limitsOf(C.proved_argon2_default_limits()) }

func limitsFor(s Settings) Limits {
	settings := s.c()
	return limitsOf(C.proved_argon2_limits_for(&settings))
}

func limitsOf(limits C.proved_argon2_limits) Limits {
	return Limits{uint32(limits.mem_cost), uint32(limits.time_cost), uint32(limits.lanes), uint64(limits.work)}
}

func (l Limits) c() C.proved_argon2_limits {
	return C.proved_argon2_limits{mem_cost: C.uint32_t(l.Memory), time_cost: C.uint32_t(l.Time),
		lanes: C.uint32_t(l.Lanes), work: C.uint64_t(l.Work)}
}

// Error returns the message of the error.
func (e Error) Error() string {
	message := C.GoString(C.proved_argon2_message(C.uint32_t(e)))
	return "argon2: " + strings.ToLower(message[:1]) + message[1:]
}

// errorOf returns the error of a number that the library returned. A string with a byte above 127 is no encoded hash,
// like any other that cannot be decoded.
func errorOf(number C.uint32_t) error {
	switch number {
	case C.PROVED_ARGON2_OK:
		return nil
	case C.PROVED_ARGON2_NOT_ASCII:
		return ErrDecodingFail
	}
	return Error(number)
}

// pass returns the address and the length of bytes. Bytes contain no pointers, so cgo does not check
// what surrounds them, such as other fields of a password's struct.
func pass(b []byte) C.go_bytes {
	if len(b) == 0 {
		return C.go_bytes{}
	}
	return C.go_bytes{at: (*C.uint8_t)(&b[0]), length: C.size_t(len(b))}
}
