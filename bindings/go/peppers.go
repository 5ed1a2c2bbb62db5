//go:build cgo

package argon2

import (
	"context"
	"fmt"
)

// Pepper is a secret key with an ID. The ID is stored beside each hash, which does not contain the key.
type Pepper struct {
	ID  string
	Key []byte `json:"-" xml:"-"`
}

// Format prints the ID, and not the key. Package fmt does not call it for an unexported field of a struct, or for the
// verbs %w and %p, and then prints the key. So keep only a pointer to a Pepper in such a field.
func (p Pepper) Format(state fmt.State, _ rune) { fmt.Fprintf(state, "{ID:%q}", p.ID) }

// Stored is what you store for a user: an encoded hash, and the ID of its pepper, which is empty without a pepper.
type Stored struct {
	KeyID   string
	Encoded string
}

// Peppers hash with the newest pepper, and verify with the one that the stored hash names. See [NewPeppers].
type Peppers struct {
	hasher  *Hasher   // has the newest pepper
	peppers []*Pepper // pointers, as in a Hasher
}

// NewPeppers takes peppers, the newest first, and returns Peppers that use a Hasher's queue, settings and limits; the
// secret of the settings has no effect. It copies the keys, so you can clear yours. It returns [ErrInvalidPeppers]
// if there is no pepper, an ID or a key is empty, or two peppers have the same ID.
//
// To change the pepper, put a new one first and keep the old ones. [Peppers.VerifyAndUpdate] renews a hash at the
// user's next login. Once no hash has the ID of an old pepper, leave that out.
func NewPeppers(hasher *Hasher, peppers ...Pepper) (*Peppers, error) {
	seen, own := map[string]bool{"": true}, make([]*Pepper, len(peppers))
	for i, pepper := range peppers {
		if seen[pepper.ID] || len(pepper.Key) == 0 {
			return nil, ErrInvalidPeppers
		}
		seen[pepper.ID] = true
		own[i] = &Pepper{pepper.ID, append([]byte(nil), pepper.Key...)}
	}
	if len(peppers) == 0 {
		return nil, ErrInvalidPeppers
	}
	if hasher == nil || hasher.queue == nil {
		return nil, ErrNoHasher
	}
	settings := *hasher.settings
	settings.Secret = own[0].Key
	return &Peppers{&Hasher{hasher.queue, &settings, hasher.limits}, own}, nil
}

// AcceptUnpeppered returns the same peppers, which also verify hashes without a pepper (the ID is empty), and renew
// these with the newest pepper. Use it only while you move such hashes: whoever can write to the store can add a
// hash that needs no key.
func (p *Peppers) AcceptUnpeppered() *Peppers {
	return &Peppers{p.hasher, append(append([]*Pepper(nil), p.peppers...), &Pepper{})}
}

// Hash hashes a password with the newest pepper.
func (p *Peppers) Hash(ctx context.Context, password []byte) (Stored, error) {
	encoded, err := p.hasher.Hash(ctx, password)
	if err != nil {
		return Stored{}, err
	}
	return Stored{p.peppers[0].ID, encoded}, nil
}

// VerifyAndUpdate verifies a password with the pepper of the stored hash. If the password matches, and the hash has an
// older pepper or other settings, updated is what to store instead; otherwise, or if the new hash fails, it is nil. If
// no pepper has the ID, the error is [ErrUnknownPepper], also for an empty ID without [Peppers.AcceptUnpeppered].
func (p *Peppers) VerifyAndUpdate(ctx context.Context, stored Stored, password []byte) (
	matches bool, updated *Stored, err error) {
	for i, pepper := range p.peppers {
		if pepper.ID == stored.KeyID {
			old := pepper
			if i == 0 {
				old = nil
			}
			matches, encoded, err := p.hasher.verifyAndUpdate(ctx, stored.Encoded, password, old)
			if encoded != "" {
				updated = &Stored{p.peppers[0].ID, encoded}
			}
			return matches, updated, err
		}
	}
	return false, nil, ErrUnknownPepper
}

// VerifyUnknown is [VerifyUnknown] with the settings of the Hasher.
func (p *Peppers) VerifyUnknown(ctx context.Context, password []byte) (matches bool, err error) {
	return p.hasher.VerifyUnknown(ctx, password)
}

// Format prints the IDs, and no key.
func (p Peppers) Format(state fmt.State, _ rune) { fmt.Fprintf(state, "argon2.Peppers%v", p.peppers) }
