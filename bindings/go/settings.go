//go:build cgo

package argon2

import "fmt"

// The versions of Argon2. Choose Version, which is that of RFC 9106.
const (
	Version   = 0x13
	Version10 = 0x10
)

// Variant is a variant of Argon2.
type Variant uint32

// The variants of Argon2. Choose ID.
const (
	D Variant = iota
	I
	ID
)

// Settings say how a hash is made. Begin with [OWASP2]. The recommended settings are Argon2id with one lane, a 16-byte
// salt and a 32-byte hash; docs/USE.md lists their memory and passes. RFC 9106 recommends four lanes for RFC9106 and
// RFC9106LowMem: to follow it, set Lanes.
type Settings struct {
	Variant    Variant
	Version    uint32 // 0 means Version
	Memory     uint32 // in KiB
	Time       uint32 // the passes over the memory
	Lanes      uint32 // the degree of parallelism, which a hash depends on
	Threads    uint32 // the most threads to fill the lanes; 0 means one per lane; verifying uses at most 16
	SaltLength uint32 // in bytes
	HashLength uint32 // in bytes
	Secret     []byte `json:"-" xml:"-"` // a pepper, or nil; it is not copied
	Data       []byte // associated data, or nil
}

// OWASP1 is OWASP's first recommendation.
func OWASP1() Settings { return preset(47104, 1) }

// OWASP2 is OWASP's second recommendation.
func OWASP2() Settings { return preset(19456, 2) }

// OWASP3 is OWASP's third recommendation.
func OWASP3() Settings { return preset(12288, 3) }

// OWASP4 is OWASP's fourth recommendation.
func OWASP4() Settings { return preset(9216, 4) }

// OWASP5 is OWASP's fifth recommendation.
func OWASP5() Settings { return preset(7168, 5) }

// RFC9106 is RFC 9106's first recommendation (section 4).
func RFC9106() Settings { return preset(2097152, 1) }

// RFC9106LowMem is RFC 9106's recommendation for little memory (section 4).
func RFC9106LowMem() Settings { return preset(65536, 3) }

func preset(memory, time uint32) Settings {
	return Settings{Variant: ID, Version: Version, Memory: memory, Time: time, Lanes: 1, SaltLength: 16, HashLength: 32}
}

// Format prints the settings without the secret and the data, in one way for all verbs. As for a [Pepper], package fmt
// does not call it for %w and %p, or for an unexported field of a struct.
func (s Settings) Format(state fmt.State, _ rune) {
	fmt.Fprintf(state, "{Variant:%d Version:%d Memory:%d Time:%d Lanes:%d Threads:%d SaltLength:%d HashLength:%d}",
		s.Variant, s.Version, s.Memory, s.Time, s.Lanes, s.Threads, s.SaltLength, s.HashLength)
}

// Limits are the highest memory, passes and lanes that an encoded hash may name, and the highest product of memory and
// passes. A hash above a limit is not computed: [ErrTooCostly].
type Limits struct {
	Memory uint32 // in KiB
	Time   uint32
	Lanes  uint32
	Work   uint64 // the memory in KiB times the passes, which the time is proportional to
}

// LimitsFor returns the default limits, each raised to that of the settings if that is higher.
func LimitsFor(settings Settings) Limits {
	return limitsFor(settings)
}
