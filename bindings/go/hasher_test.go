package argon2

import (
	"context"
	"fmt"
	"math"
	"runtime"
	"strings"
	"testing"
	"time"
)

// waitFor waits until something is true.
func waitFor(t *testing.T, what string, isTrue func() bool) {
	for end := time.Now().Add(time.Hour); !isTrue(); time.Sleep(time.Millisecond) {
		if time.Now().After(end) {
			t.Fatal("not in 30 seconds: " + what)
		}
	}
}

// endless makes the hash of settings take hours.
func endless(s *Settings) { s.Memory, s.Time, s.Lanes = 4096, 1<<31, 2 }

// start makes a Hasher compute a hash in a goroutine, and returns a channel for the error.
func start(ctx context.Context, h *Hasher) chan error {
	ended := make(chan error, 1)
	go func() {
		_, err := h.Hash(ctx, password)
		ended <- err
	}()
	return ended
}

// hold makes a Hasher compute an endless hash. It returns a function that cancels the hash and returns its error.
func hold(t *testing.T, h *Hasher) (cancel func() error) {
	cancellable, end := context.WithCancel(ctx)
	before, ended := len(h.queue.places), start(cancellable, h.With(small(endless)))
	waitFor(t, "it computes", func() bool { return len(h.queue.places) > before })
	return func() error {
		end()
		return <-ended
	}
}

func TestHasherUsesItsSettingsAndLimits(t *testing.T) {
	s := small()
	s.Secret, s.Data = []byte("key"), []byte("user")
	h, today := must(NewHasher(s, 2, 0)), s
	encoded := must(h.Hash(ctx, password))
	today.Time = 2
	matches, updated, err := h.With(today).VerifyAndUpdate(ctx, encoded, password)
	if !matches || err != nil || !must(h.Verify(ctx, updated, password)) || must(Verify(encoded, password)) ||
		must(h.VerifyUnknown(ctx, password)) {
		t.Error(matches, updated, err)
	}
	today.Time = 20 // above the default limits
	costly := must(h.With(today).Hash(ctx, password))
	for i, c := range []struct {
		hasher  *Hasher
		encoded string
		err     error
	}{
		{h.Within(Limits{64, 1, 1, 63}), encoded, ErrTooCostly}, {h.Within(Limits{64, 1, 1, 64}), encoded, nil},
		{h, costly, ErrTooCostly}, {h.With(today), costly, nil},
	} {
		if _, err := c.hasher.Verify(ctx, c.encoded, password); err != c.err {
			t.Error(i, err)
		}
	}
}

// TestAZeroValueReturnsAnError uses a Hasher and Peppers that no function has made. Each call panicked once.
func TestAZeroValueReturnsAnError(t *testing.T) {
	h, p, encoded := new(Hasher), new(Peppers), must(Hash(password, small()))
	for i, h := range []*Hasher{h, h.With(small()), h.Within(noLimits)} {
		_, one := h.Hash(ctx, password)
		_, two := h.Verify(ctx, encoded, password)
		_, _, three := h.VerifyAndUpdate(ctx, encoded, password)
		_, four := h.VerifyUnknown(ctx, password)
		_, five := NewPeppers(h, Pepper{"2026", []byte("key")})
		if one != ErrNoHasher || two != ErrNoHasher || three != ErrNoHasher || four != ErrNoHasher || five != ErrNoHasher {
			t.Error(i, one, two, three, four, five)
		}
	}
	_, one := p.Hash(ctx, password)
	_, _, two := p.VerifyAndUpdate(ctx, Stored{"", encoded}, password)
	_, three := p.VerifyUnknown(ctx, password)
	if one != ErrNoHasher || two != ErrUnknownPepper || three != ErrNoHasher {
		t.Error(one, two, three)
	}
	if shown := fmt.Sprint(*h, h, *p, p); strings.Contains(shown, "PANIC") || !strings.Contains(shown, "argon2.Hasher{}") {
		t.Error(shown)
	}
}

func TestCallersComputeOrWaitOrLeaveOrAreTurnedAway(t *testing.T) {
	h, encoded := must(NewHasher(small(), 2, 1)), must(Hash(password, small()))
	cancel, cancelOther := hold(t, h), hold(t, h)
	for i := 0; i < 3; i++ {
		short, end := context.WithTimeout(ctx, 10*time.Millisecond)
		if _, err := h.VerifyUnknown(short, password); err != context.DeadlineExceeded {
			t.Error(err)
		}
		end()
	}
	waiting := start(ctx, h)
	waitFor(t, "it waits", func() bool { return len(h.queue.callers) == 3 })
	cancelled, end := context.WithCancel(ctx)
	end()
	_, err := h.Verify(cancelled, encoded, password)
	if _, busy := h.Verify(ctx, encoded, password); err != context.Canceled || busy != ErrBusy {
		t.Error(err, busy)
	}
	if found := h.With(small()).Stats(); found != (Stats{Running: 2, Queued: 1, Refused: 1}) {
		t.Error(found)
	}
	if err, next := cancel(), <-waiting; err != context.Canceled || next != nil {
		t.Error(err, next)
	}
	cancelOther()
	panicOf(func() { enqueue(ctx, h, func(run) (bool, error) { panic("in the middle") }) })
	if len(h.queue.places) != 0 || len(h.queue.callers) != 0 || h.Stats() != (Stats{Refused: 1}) {
		t.Error("a place is not free")
	}
}

// TestNobodyIsTurnedAwayWhileNobodyWaits makes a call when the waiting call has got a place but not yet resumed.
func TestNobodyIsTurnedAwayWhileNobodyWaits(t *testing.T) {
	defer runtime.GOMAXPROCS(runtime.GOMAXPROCS(1))
	for i := 0; i < 50; i++ {
		h := must(NewHasher(small(), 1, 1))
		must(0, h.queue.enter(ctx))
		waiting := start(ctx, h)
		waitFor(t, "it waits", func() bool { return len(h.queue.callers) == 2 })
		h.queue.leave()
		_, err := h.Hash(ctx, password)
		if err2 := <-waiting; err != nil || err2 != nil {
			t.Fatal(i, err, err2)
		}
	}
	must(must(NewHasher(small(), math.MaxInt, math.MaxInt)).Hash(ctx, password))
}

func TestCancellationStopsAHash(t *testing.T) {
	h := must(NewHasher(small(), 1, 0))
	for i := 0; i < 5; i++ {
		cancel := hold(t, h)
		time.Sleep(time.Duration(i) * 5 * time.Millisecond)
		begun := time.Now()
		if err := cancel(); err != context.Canceled || time.Since(begun) > 5*time.Second || len(h.queue.places) != 0 {
			t.Error(err, time.Since(begun), len(h.queue.places))
		}
	}
	waitFor(t, "no goroutine is left", func() bool { return runtime.NumGoroutine() < 5 })
	encoded := must(Hash(password, small(func(s *Settings) { s.Time = 10 })))
	cancellable, cancel := context.WithCancel(ctx)
	h = h.With(small(endless))
	matches, updated, err := h.VerifyAndUpdate(cancellable, encoded, nil)
	if matches || updated != "" || err != nil {
		t.Error(matches, updated, err)
	}
	time.AfterFunc(200*time.Millisecond, cancel)
	matches, updated, err = h.VerifyAndUpdate(cancellable, encoded, password)
	if !matches || updated != "" || err != nil || cancellable.Err() == nil {
		t.Error(matches, updated, err)
	}
}
