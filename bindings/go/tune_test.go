package argon2

import (
	"context"
	"testing"
	"time"
)

func TestTuneMeasuresHashes(t *testing.T) {
	most := OWASP5()
	found := must(Tune(ctx, time.Minute, most))
	if s := found.Settings; found.Time <= 0 || found.Time > time.Minute || s.Time < 5 || s.Memory != most.Memory {
		t.Error(found)
	}
	most.Time, most.Threads, most.SaltLength, most.Data = 1, 3, 20, []byte("data")
	found = must(Tune(ctx, time.Minute, most))
	if s := found.Settings; s.Threads != 3 || s.SaltLength != 20 || string(s.Data) != "data" || s.HashLength != 32 {
		t.Error(found)
	}
	_, slow := Tune(ctx, 0, most)
	_, negative := Tune(ctx, -time.Hour, most)
	most.Lanes = 0
	_, none := Tune(ctx, time.Minute, most)
	if slow != ErrTooSlow || negative != ErrTooSlow || none != ErrLanesTooFew {
		t.Error(slow, negative, none)
	}
}

func TestTuneStopsWhenItsContextEnds(t *testing.T) {
	cancelled, cancel := context.WithCancel(ctx)
	cancel()
	_, err := Tune(cancelled, time.Minute, OWASP5())
	late, end := context.WithTimeout(ctx, 50*time.Millisecond)
	defer end()
	begun := time.Now()
	_, err2 := Tune(late, time.Hour, RFC9106()) // its first hash takes seconds
	if err != context.Canceled || err2 != context.DeadlineExceeded || time.Since(begun) > 20*time.Second {
		t.Error(err, err2, time.Since(begun))
	}
}
