// The program makes the calls that standard input names, over the library of codes.c. It prints what each call returned
// and what the library saw, which test_go.py checks. A line of input is a call's name, who makes it, and the arguments
// of set_answers. A function of the package makes it, or a Hasher, with a context that may end (stoppable) or with one
// that never ends (hasher).
package main

// #include <stdint.h>
// void set_answers(uint32_t check, uint32_t then, uint32_t read, uint32_t memory, uint32_t kib_size);
// const char *seen(void);
import "C"

import (
	"bufio"
	"context"
	"fmt"
	"os"
	"strings"

	"vemkuorl.example/proved-argon2/argon2"
)

const text = "$argon2id$x"

var (
	word = []byte("word")
	// No two of these settings are equal, so that none can be passed in the place of another.
	settings = argon2.Settings{
		Variant: argon2.ID, Version: argon2.Version, Memory: 64, Time: 3, Lanes: 4, Threads: 1, SaltLength: 8, HashLength: 5,
		Secret: []byte("key"), Data: []byte("data"),
	}
)

func call(hasher *argon2.Hasher, name, caller string) (value any, err error) {
	ctx, isHasher := context.Background(), caller != "function"
	if caller == "stoppable" {
		stoppable, cancel := context.WithCancel(ctx)
		defer cancel()
		ctx = stoppable
	}
	switch {
	case name == "hash_raw":
		value, err = argon2.HashRaw(word, []byte("somesalt"), settings)
		value = fmt.Sprintf("%s", value)
	case name == "hash_encoded" && isHasher:
		value, err = hasher.Hash(ctx, word)
	case name == "hash_encoded":
		value, err = argon2.Hash(word, settings)
	case name == "verify_encoded_alone":
		value, err = argon2.Verify(text, word)
	case name == "verify_encoded_within":
		value, err = hasher.Within(argon2.Limits{Memory: 10, Time: 11, Lanes: 12, Work: 13}).Verify(ctx, text, word)
	case name == "verify_unknown" && isHasher:
		value, err = hasher.With(manyLanes()).VerifyUnknown(ctx, word)
	case name == "verify_unknown":
		value, err = argon2.VerifyUnknown(word, manyLanes())
	case name == "needs_rehash":
		today := settings
		today.SaltLength = 6 // as the library reports it
		value, err = argon2.NeedsRehash(text, today)
	}
	return value, err
}

// manyLanes returns settings with more lanes than threads that may verify.
func manyLanes() argon2.Settings {
	s := settings
	s.Lanes, s.Threads = 20, 0
	return s
}

// printable replaces what a random salt may have.
func printable(letter rune) rune {
	if letter < ' ' || letter > '~' {
		return '?'
	}
	return letter
}

func main() {
	for lines := bufio.NewScanner(os.Stdin); lines.Scan(); {
		var name, caller string
		var n [5]C.uint32_t
		if _, err := fmt.Sscan(lines.Text(), &name, &caller, &n[0], &n[1], &n[2], &n[3], &n[4]); err != nil {
			panic(err)
		}
		C.set_answers(0, 0, 0, 0, 1024) // the settings are valid
		hasher, err := argon2.NewHasher(settings, 1, 0)
		if err != nil {
			panic(err)
		}
		C.set_answers(n[0], n[1], n[2], n[3], n[4])
		value, err := call(hasher, name, caller)
		if number, ok := err.(argon2.Error); ok {
			value = fmt.Sprintf("%v, error %d", value, number)
		}
		fmt.Printf("%v|%s\n", value, strings.Map(printable, strings.ToValidUTF8(C.GoString(C.seen()), "?")))
	}
}
