package argon2_test

import (
	"context"
	"errors"
	"fmt"
	"time"

	"vemkuorl.example/proved-argon2/argon2"
)

func Example() {
	encoded, err := argon2.Hash([]byte("correct horse"), argon2.OWASP2())
	if err != nil {
		panic(err)
	}
	fmt.Println(argon2.Verify(encoded, []byte("correct horse")))
	fmt.Println(argon2.Verify(encoded, []byte("wrong horse")))
	fmt.Println(argon2.NeedsRehash(encoded, argon2.OWASP1()))
	// Output:
	// true <nil>
	// false <nil>
	// true <nil>
}

func ExampleIDKey() {
	fmt.Printf("%x\n", argon2.IDKey([]byte("password"), []byte("somesalt"), 2, 256, 1, 32))
	// Output: 9dfeb910e80bad0311fee20f9c0e2b12c17987b4cac90c2ef54d5b3021c68bfe
}

func ExampleHasher() {
	stored := "$argon2id$v=19$m=7168,t=5,p=1$QCHX93qQXtrJgS3rTVrVbw$CElVoNDzqedjgISYI9h4nVD0rsiS7aV1SXkE32c75gI"
	hasher, err := argon2.NewHasher(argon2.OWASP2(), 2, 64) // two at a time, and 64 wait
	if err != nil {
		panic(err)
	}
	ctx, cancel := context.WithTimeout(context.Background(), time.Minute)
	defer cancel()
	matches, updated, err := hasher.VerifyAndUpdate(ctx, stored, []byte("correct horse"))
	fmt.Println(matches, updated != "", err)
	cancel()
	fmt.Println(hasher.VerifyUnknown(ctx, []byte("correct horse")))
	// Output:
	// true true <nil>
	// false context canceled
}

func ExamplePeppers() {
	stored := argon2.Stored{
		KeyID:   "2025",
		Encoded: "$argon2id$v=19$m=7168,t=5,p=1$XFp1Mkqf7MSpiUbZ2Xrhaw$wONd9kNFUla5QhuMuvIaClFh1tuxhQ8kv34GfQuqlEs",
	}
	hasher, err := argon2.NewHasher(argon2.OWASP5(), 1, 16)
	if err != nil {
		panic(err)
	}
	peppers, err := argon2.NewPeppers(hasher,
		argon2.Pepper{ID: "2026", Key: []byte("new key")}, argon2.Pepper{ID: "2025", Key: []byte("old key")})
	if err != nil {
		panic(err)
	}
	matches, updated, err := peppers.VerifyAndUpdate(context.Background(), stored, []byte("correct horse"))
	fmt.Println(matches, updated.KeyID, err)
	stored.KeyID = ""
	_, _, err = peppers.VerifyAndUpdate(context.Background(), stored, []byte("correct horse"))
	fmt.Println(errors.Is(err, argon2.ErrUnknownPepper))
	// Output:
	// true 2026 <nil>
	// true
}
