//go:build cgo

package argon2

import (
	"context"
	"fmt"
	"io"
	"math"
	"sync/atomic"
)

// Hasher limits how many hashes are computed at a time, and how many callers wait for that. Make one for the whole
// service. Its methods can be called by any goroutines. Those of a zero value return [ErrNoHasher].
//
// A caller waits in a queue for its turn. If its context ends, it leaves the queue, or its hash stops after the
// current slice (a quarter of a pass), and the method returns the error of the context. If no more callers may wait,
// the method returns [ErrBusy] at once.
//
// # Threads
//
// Each running hash occupies one operating-system thread of Go, and at most one more for each further lane (at most 15
// if it verifies), up to Settings.Threads in all. A small hash occupies one. Callers that wait occupy none.
//
// # Buffers
//
// A running hash uses a buffer of the Hasher, which is cleared after the hash and kept for the next one. There are at
// most as many buffers as places, or 8,192. A buffer that is not used for ten seconds is freed. If a hash needs more
// memory than the settings of [NewHasher] do, or the system denies a buffer, the call allocates its own memory, and
// frees it.
type Hasher struct {
	queue    *queue
	settings *Settings // a pointer, since for %w and %p package fmt would print a value with its secret
	limits   Limits
}

// NewHasher returns a Hasher, or the [Error] of settings that no hash can have. The number concurrency (at least one)
// limits how many hashes are computed at a time, and waiting limits how many callers wait. Its limits are [LimitsFor]
// the settings. It does not copy Settings.Secret and Settings.Data: do not change their bytes while the Hasher is used.
func NewHasher(settings Settings, concurrency, waiting int) (*Hasher, error) {
	if err := (run{settings: settings}).check(nil, uint64(settings.SaltLength)); err != nil {
		return nil, err
	}
	if concurrency < 1 {
		concurrency = 1
	}
	callers := concurrency
	if waiting > 0 {
		callers += waiting
	}
	if callers < 0 { // the sum overflowed
		callers = math.MaxInt
	}
	buffers, err := newBuffers(settings, concurrency)
	if err != nil {
		return nil, err
	}
	return &Hasher{
		&queue{callers: make(chan struct{}, callers), places: make(chan struct{}, concurrency), buffers: buffers},
		&settings, LimitsFor(settings),
	}, nil
}

// With returns a Hasher with other settings, for example with the associated data of a user, and the limits for them.
// It shares the queue and the buffers. It does not check the settings: each call that needs a hash with them does.
func (h *Hasher) With(settings Settings) *Hasher {
	return &Hasher{h.queue, &settings, LimitsFor(settings)}
}

// Within returns a Hasher with other limits. It shares the queue and the buffers.
func (h *Hasher) Within(limits Limits) *Hasher { return &Hasher{h.queue, h.settings, limits} }

// Hash is [Hash] with the settings of the Hasher.
func (h *Hasher) Hash(ctx context.Context, password []byte) (encoded string, err error) {
	return enqueue(ctx, h, func(r run) (string, error) { return r.hash(password) })
}

// Verify is [Verify] with the secret, the data and the limits of the Hasher.
func (h *Hasher) Verify(ctx context.Context, encoded string, password []byte) (matches bool, err error) {
	return enqueue(ctx, h, func(r run) (bool, error) { return r.verify(encoded, password) })
}

// VerifyAndUpdate is [VerifyAndUpdate] with the settings and the limits of the Hasher. If the context ends while the
// new hash is computed, the password matches all the same, and updated is empty.
func (h *Hasher) VerifyAndUpdate(ctx context.Context, encoded string, password []byte) (
	matches bool, updated string, err error) {
	return h.verifyAndUpdate(ctx, encoded, password, nil)
}

func (h *Hasher) verifyAndUpdate(ctx context.Context, encoded string, password []byte, old *Pepper) (
	matches bool, updated string, err error) {
	matches, err = enqueue(ctx, h, func(r run) (bool, error) {
		matches, updated, err = r.verifyAndUpdate(encoded, password, old)
		return matches, err
	})
	return matches, updated, err
}

// VerifyUnknown is [VerifyUnknown] with the settings of the Hasher.
func (h *Hasher) VerifyUnknown(ctx context.Context, password []byte) (matches bool, err error) {
	return enqueue(ctx, h, func(r run) (bool, error) { return r.verifyUnknown(password) })
}

// Stats are the numbers of a Hasher's queue, for example for a service's metrics.
type Stats struct {
	Running int    // the callers that compute now
	Queued  int    // the callers that wait now
	Refused uint64 // the callers that have got [ErrBusy] since NewHasher
}

// Stats returns the numbers of the queue. While callers come and leave, the numbers may be from different moments.
func (h *Hasher) Stats() Stats {
	if h == nil || h.queue == nil {
		return Stats{}
	}
	stats := Stats{Running: len(h.queue.places), Refused: h.queue.refused.Load()}
	if callers := len(h.queue.callers); callers > stats.Running {
		stats.Queued = callers - stats.Running
	}
	return stats
}

// Format prints the settings without the secret, for a Hasher and for a pointer to one.
func (h Hasher) Format(state fmt.State, verb rune) {
	io.WriteString(state, "argon2.Hasher")
	if h.settings == nil {
		io.WriteString(state, "{}")
		return
	}
	h.settings.Format(state, verb)
}

// enqueue waits for a place in the queue, and makes a call in it. The end of the context stops both.
func enqueue[T any](ctx context.Context, h *Hasher, call func(run) (T, error)) (value T, err error) {
	if h == nil || h.queue == nil {
		return value, ErrNoHasher
	}
	if err := h.queue.enter(ctx); err != nil {
		return value, err
	}
	defer h.queue.leave()
	return stoppable(ctx, func(stop *int32) (T, error) {
		return call(run{*h.settings, h.limits, h.queue.buffers, stop})
	})
}

// stoppable makes a call, and passes it what stops it once the context ends, or nil if the context never ends.
func stoppable[T any](ctx context.Context, call func(stop *int32) (T, error)) (T, error) {
	if ctx.Done() == nil {
		return call(nil)
	}
	stop, returned := new(int32), make(chan struct{})
	defer close(returned)
	go func() {
		select {
		case <-ctx.Done():
			atomic.StoreInt32(stop, 1)
		case <-returned:
		}
	}()
	value, err := call(stop)
	if err == stopped && ctx.Err() != nil {
		err = ctx.Err()
	}
	return value, err
}

// queue is what Hashers share: places to compute in, and the buffers of those who compute.
type queue struct {
	callers chan struct{} // has an item for each caller that computes or waits
	places  chan struct{} // has an item for each caller that computes
	buffers *buffers
	refused atomic.Uint64
}

func (q *queue) enter(ctx context.Context) error {
	if err := ctx.Err(); err != nil {
		return err
	}
	select {
	case q.callers <- struct{}{}:
	default:
		q.refused.Add(1)
		return ErrBusy
	}
	select {
	case q.places <- struct{}{}: // callers that wait get a free place in the order in which they came
		return nil
	case <-ctx.Done():
		<-q.callers
		return ctx.Err()
	}
}

func (q *queue) leave() {
	<-q.places
	<-q.callers
}
