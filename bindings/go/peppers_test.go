package argon2

import "testing"

func TestPeppersRenewHashes(t *testing.T) {
	old, key, none := Pepper{"2025", []byte("old")}, Pepper{"2026", []byte("new")}, Pepper{}
	hasher := must(NewHasher(small(), 1, 0))
	of := func(p Pepper, changes ...func(*Settings)) Stored {
		s := small(changes...)
		s.Secret = p.Key
		return Stored{p.ID, must(Hash(password, s))}
	}
	both, newest := must(NewPeppers(hasher, key, old)), must(NewPeppers(hasher, key))
	copy(key.Key, "xxx") // a caller may clear its key, since the peppers have copies
	key.Key = []byte("new")
	equal := must(NewPeppers(hasher, Pepper{"2026", old.Key}, old))
	limited := must(NewPeppers(hasher.Within(Limits{64, 1, 1, 63}), key, old))
	for i, c := range []struct {
		peppers          *Peppers
		stored           Stored
		matches, renewed bool
		err              error
	}{
		{both, must(both.Hash(ctx, password)), true, false, nil},
		{both, of(key), true, false, nil},
		{both, of(key, func(s *Settings) { s.Time = 2 }), true, true, nil},
		{both, of(old), true, true, nil},
		{equal, of(old), true, true, nil},
		{both, Stored{"2026", of(old).Encoded}, false, false, nil},
		{both, of(none), false, false, ErrUnknownPepper},
		{both, of(Pepper{"2024", []byte("older")}), false, false, ErrUnknownPepper},
		{newest, of(old), false, false, ErrUnknownPepper},
		{both.AcceptUnpeppered(), of(none), true, true, nil},
		{both.AcceptUnpeppered(), of(Pepper{"2024", nil}), false, false, ErrUnknownPepper},
		{both, Stored{"2026", "x"}, false, false, ErrDecodingFail},
		{limited, of(key), false, false, ErrTooCostly},
		{limited.AcceptUnpeppered(), of(none), false, false, ErrTooCostly},
	} {
		matches, updated, err := c.peppers.VerifyAndUpdate(ctx, c.stored, password)
		if matches != c.matches || (updated != nil) != c.renewed || err != c.err {
			t.Error(i, matches, updated, err)
		}
		if wrong, none, _ := c.peppers.VerifyAndUpdate(ctx, c.stored, []byte("Password")); wrong || none != nil {
			t.Error(i, wrong, none)
		}
		if updated != nil {
			again, none, err := c.peppers.VerifyAndUpdate(ctx, *updated, password)
			if updated.KeyID != "2026" || !again || none != nil || err != nil {
				t.Error(i, updated, again, none, err)
			}
		}
	}
	if must(Verify(must(both.Hash(ctx, password)).Encoded, password)) || must(both.VerifyUnknown(ctx, password)) {
		t.Error("a password matches without the pepper, or without a hash")
	}
}

func TestInvalidPeppersAreRejected(t *testing.T) {
	a, b := Pepper{"a", []byte("key")}, Pepper{"b", []byte("other")}
	for _, list := range [][]Pepper{
		{}, {{"a", nil}}, {{"", []byte("key")}}, {a, {"b", []byte{}}}, {a, b, {"a", []byte("x")}},
	} {
		if found, err := NewPeppers(must(NewHasher(small(), 1, 0)), list...); found != nil || err != ErrInvalidPeppers {
			t.Error(list, found, err)
		}
	}
}
