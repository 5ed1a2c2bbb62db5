package argon2

import (
	"bytes"
	"context"
	"encoding/base64"
	"encoding/hex"
	"encoding/json"
	"encoding/xml"
	"fmt"
	"math"
	"os"
	"strings"
	"testing"
)

var (
	ctx      = context.Background()
	password = []byte("password")
	noLimits = Limits{math.MaxUint32, math.MaxUint32, math.MaxUint32, math.MaxUint64}
)

// must returns the value of a call that has to succeed.
func must[T any](value T, err error) T {
	if err != nil {
		panic(err)
	}
	return value
}

// small returns settings whose hash takes little time, with these changes applied.
func small(changes ...func(*Settings)) Settings {
	s := OWASP2()
	s.Memory, s.Time = 64, 1
	for _, change := range changes {
		change(&s)
	}
	return s
}

// linesOf returns the lines of a table that the other languages read too.
func linesOf(file string) []string {
	return strings.Split(strings.TrimSpace(string(must(os.ReadFile(file)))), "\n")
}

// asInVectors is the text of an error as the vectors have it.
func asInVectors(err error) string {
	text := strings.TrimPrefix(err.Error(), "argon2: ")
	return "ERR " + strings.ToUpper(text[:1]) + text[1:]
}

// TestHashesEqualThoseOfOtherImplementations also compares 800 random hashes of libargon2 if RANDOM_HASHES names a file
// of them. HashRaw allocates its own memory, and the Hasher verifies in its buffers.
func TestHashesEqualThoseOfOtherImplementations(t *testing.T) {
	lines, hasher := linesOf("../vectors/raw.txt"), must(NewHasher(OWASP2(), 1, 0))
	if file := os.Getenv("RANDOM_HASHES"); file != "" {
		lines = append(lines, linesOf(file)...)
	}
	variants := map[string]Variant{"argon2d": D, "argon2i": I, "argon2id": ID}
	for _, line := range lines {
		fields, s := strings.SplitN(line, " ", 11), Settings{}
		must(fmt.Sscan(strings.Join(fields[1:6], " "), &s.Version, &s.Time, &s.Memory, &s.Lanes, &s.HashLength))
		var inputs [4][]byte
		for i := range inputs {
			inputs[i] = must(hex.DecodeString(strings.Trim(fields[6+i], "-"))) // "-" stands for none
		}
		password, salt, secret, expected := inputs[0], inputs[1], inputs[2], fields[10]
		s.Variant, s.SaltLength, s.Secret, s.Data = variants[fields[0]], uint32(len(salt)), secret, inputs[3]
		tag, err := HashRaw(password, salt, s)
		if err != nil {
			if asInVectors(err) != expected {
				t.Errorf("%s: %v", line, err)
			}
			continue
		}
		text := base64.RawStdEncoding.EncodeToString
		encoded := fmt.Sprintf("$%s$v=%d$m=%d,t=%d,p=%d$%s$%s",
			fields[0], s.Version, s.Memory, s.Time, s.Lanes, text(salt), text(tag))
		if hex.EncodeToString(tag) != expected || must(NeedsRehash(encoded, s)) {
			t.Errorf("%s: %x", line, tag)
		}
		for _, other := range [][]byte{secret, append([]byte("x"), secret...)} {
			s.Secret = other
			matches := must(hasher.With(s).Within(noLimits).Verify(ctx, encoded, password))
			if matches != bytes.Equal(other, secret) {
				t.Errorf("%s: %v", line, matches)
			}
		}
	}
}

// TestEncodedHashesAreVerified uses encoded hashes of other implementations, and invalid strings.
func TestEncodedHashesAreVerified(t *testing.T) {
	hasher := must(NewHasher(OWASP2(), 1, 0)).Within(noLimits)
	for _, line := range linesOf("../vectors/texts.txt") {
		encoded, expected, _ := strings.Cut(line, "\t")
		matches, err := hasher.Verify(ctx, encoded, password)
		found := fmt.Sprint(matches)
		if err != nil {
			found = asInVectors(err)
		}
		if found != expected {
			t.Errorf("%s: %s, not %s", encoded, found, expected)
		}
	}
}

// saltOf returns the salt of an encoded hash.
func saltOf(encoded string) []byte {
	return must(base64.RawStdEncoding.DecodeString(strings.Split(encoded, "$")[4]))
}

func TestHashMakesNewSalts(t *testing.T) {
	one, other := must(Hash(password, OWASP2())), must(Hash(password, OWASP2()))
	if one == other || !strings.HasPrefix(one, "$argon2id$v=19$m=19456,t=2,p=1$") || len(one) != 97 {
		t.Error(one, other)
	}
	var differs [16]bool // all eight salts have the same byte somewhere only once in 2^52 times
	first := saltOf(must(Hash(password, small())))
	for i := 0; i < 7; i++ {
		for at, b := range saltOf(must(Hash(password, small()))) {
			differs[at] = differs[at] || b != first[at]
		}
	}
	for at, isRandom := range differs {
		if !isRandom {
			t.Error("byte", at, "of the salt is no random one")
		}
	}
	for _, pwd := range [][]byte{nil, []byte("pass\x00word"), make([]byte, 1<<16)} {
		encoded := must(Hash(pwd, small()))
		if !must(Verify(encoded, pwd)) || must(Verify(encoded, append([]byte("x"), pwd...))) {
			t.Error(encoded, pwd)
		}
	}
}

// TestSettingsAreChecked passes invalid settings to NewHasher and to calls that hash. The password matches, although
// there is no new hash. (test_go.py tests the error of each number.)
func TestSettingsAreChecked(t *testing.T) {
	encoded := must(Hash(password, small()))
	for err, change := range map[Error]func(*Settings){
		ErrTimeTooSmall: func(s *Settings) { s.Time = 0 }, ErrLanesTooMany: func(s *Settings) { s.Lanes = 1 << 24 },
	} {
		s := small(change)
		none, zero := NewHasher(s, 1, 0)
		hasher := must(NewHasher(small(), 1, 0)).With(s)
		_, one := Hash(password, s)
		_, two := HashRaw(password, make([]byte, s.SaltLength), s)
		_, three := hasher.Hash(ctx, password)
		_, four := hasher.VerifyUnknown(ctx, password)
		matches, updated, five := hasher.VerifyAndUpdate(ctx, encoded, password)
		if none != nil || zero != err || one != err || two != err || three != err || four != err {
			t.Error(none, zero, one, two, three, four, "not", err)
		}
		if !matches || updated != "" || five != nil {
			t.Error(err, matches, updated, five)
		}
	}
}

func TestNeedsRehashComparesEverySetting(t *testing.T) {
	encoded := must(Hash(password, small()))
	for i, change := range []func(*Settings){
		func(s *Settings) { s.Variant = I }, func(s *Settings) { s.Version = Version10 },
		func(s *Settings) { s.Memory++ }, func(s *Settings) { s.Time++ }, func(s *Settings) { s.Lanes++ },
		func(s *Settings) { s.SaltLength++ }, func(s *Settings) { s.SaltLength-- },
		func(s *Settings) { s.HashLength++ }, func(s *Settings) { s.HashLength-- },
	} {
		today := small(change)
		matches, updated, err := VerifyAndUpdate(encoded, password, today)
		if !matches || err != nil || !must(NeedsRehash(encoded, today)) || must(NeedsRehash(updated, today)) ||
			!must(Verify(updated, password)) {
			t.Error(i, matches, updated, err)
		}
		matches, updated, err = VerifyAndUpdate(encoded, []byte("Password"), today)
		if matches || updated != "" || err != nil {
			t.Error(i, matches, updated, err)
		}
	}
	if matches, updated, err := VerifyAndUpdate(encoded, password, small()); !matches || updated != "" || err != nil {
		t.Error(matches, updated, err)
	}
}

func TestTheVersionLeftOutIsTheCurrentOne(t *testing.T) {
	s := small(func(s *Settings) { s.Version = 0 })
	encoded := must(Hash(password, s))
	matches, updated, err := VerifyAndUpdate(encoded, password, s)
	if !strings.HasPrefix(encoded, "$argon2id$v=19$") || !matches || updated != "" || err != nil {
		t.Error(encoded, matches, updated, err)
	}
	if must(NeedsRehash(encoded, s)) || !must(NeedsRehash(encoded, small(func(s *Settings) { s.Version = Version10 }))) {
		t.Error(encoded)
	}
}

func TestLimitsAreTheDefaultOnesOrThoseOfTheSettings(t *testing.T) {
	expected := DefaultLimits()
	if found := LimitsFor(OWASP2()); found != expected {
		t.Error(found)
	}
	s := Settings{Memory: expected.Memory + 1, Time: expected.Time + 1, Lanes: expected.Lanes + 1}
	if found := LimitsFor(s); found != (Limits{s.Memory, s.Time, s.Lanes, uint64(s.Memory) * uint64(s.Time)}) {
		t.Error(found)
	}
}

// TestKeysAreTheHashesOfTheirArguments shows that the functions of x/crypto pass each argument in its place.
func TestKeysAreTheHashesOfTheirArguments(t *testing.T) {
	s := Settings{Version: Version, Time: 3, Memory: 100, Lanes: 2, HashLength: 24}
	salt := []byte("somesalt")
	for variant, key := range map[Variant]func(pwd, salt []byte, time, memory uint32, threads uint8, length uint32) []byte{
		I: Key, ID: IDKey,
	} {
		s.Variant = variant
		if !bytes.Equal(key(password, salt, 3, 100, 2, 24), must(HashRaw(password, salt, s))) {
			t.Error(variant)
		}
	}
}

func TestIDKeyPanicsForInvalidArguments(t *testing.T) {
	salt := []byte("somesalt")
	for expected, call := range map[any]func(){
		"argon2: number of rounds too small": func() { IDKey(password, salt, 0, 64, 1, 32) },
		"argon2: parallelism degree too low": func() { IDKey(password, salt, 1, 64, 0, 32) },
		ErrSaltTooShort:                      func() { IDKey(password, salt[1:], 1, 64, 1, 32) },
		ErrOutputTooShort:                    func() { IDKey(password, salt, 1, 64, 1, 3) },
		ErrMemoryTooLittle:                   func() { IDKey(password, salt, 1, 63, 8, 32) },
	} {
		if found := panicOf(call); found != expected {
			t.Errorf("%v, not %v", found, expected)
		}
	}
}

// panicOf returns what a call panics with.
func panicOf(call func()) (found any) {
	defer func() { found = recover() }()
	call()
	return nil
}

// TestBytesBesidePointersAreAccepted passes bytes of structs that also have pointers. GODEBUG=cgocheck=2 must accept
// these calls.
func TestBytesBesidePointersAreAccepted(t *testing.T) {
	type user struct {
		password, salt, key [16]byte
		next                *user
		name                *string
	}
	u := &user{next: &user{}, name: new(string)}
	s := small()
	s.Secret, s.Data = u.key[:], u.key[2:9]
	hasher := must(NewHasher(s, 1, 0))
	cancellable, cancel := context.WithCancel(ctx)
	defer cancel()
	encoded := must(hasher.Hash(cancellable, u.password[:]))
	if must(HashRaw(u.password[:], u.salt[1:], s)); !must(hasher.Verify(cancellable, encoded, u.password[:])) {
		t.Error(encoded)
	}
}

func TestNoSecretIsPrinted(t *testing.T) {
	s := small()
	s.Secret = []byte("hidden")
	hasher := must(NewHasher(s, 1, 0))
	peppers := must(NewPeppers(hasher, Pepper{"2026", s.Secret}))
	for _, verb := range []string{"%v", "%+v", "%#v", "%s", "%x", "%d", "%w", "%p"} {
		shown := fmt.Sprintf(strings.Repeat(verb+" ", 5), hasher, peppers, peppers.peppers, *hasher, *peppers)
		if verb != "%w" && verb != "%p" {
			shown += fmt.Sprintf(verb+" "+verb, s, Pepper{"2026", s.Secret})
		}
		for _, secret := range []string{"hidden", "68696464656e", "104 105", "0x68, 0x69"} {
			if strings.Contains(shown, secret) {
				t.Error(shown)
			}
		}
	}
	for _, marshal := range []func(any) ([]byte, error){json.Marshal, xml.Marshal} {
		shown := string(must(marshal(s))) + string(must(marshal(Pepper{"2026", s.Secret})))
		for _, secret := range []string{"hidden", base64.StdEncoding.EncodeToString(s.Secret)} {
			if strings.Contains(shown, secret) {
				t.Error(shown)
			}
		}
	}
}
