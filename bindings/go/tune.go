//go:build cgo

package argon2

import (
	"context"
	"time"
)

// Tuning are settings that [Tune] found, and the time of a hash with them.
type Tuning struct {
	Settings Settings
	Time     time.Duration
}

// Tune finds strong settings whose hash takes no longer than the argument within on this machine. It halves most.Memory
// until a hash is fast enough, and then adds as many passes as fit, up to [DefaultLimits]. The other settings are those
// of most. If even the weakest settings for passwords take longer, or need more memory, it returns [ErrTooSlow]. Hashes
// take longer on a busy machine.
func Tune(ctx context.Context, within time.Duration, most Settings) (Tuning, error) {
	if err := ctx.Err(); err != nil {
		return Tuning{}, err
	}
	found, err := stoppable(ctx, func(stop *int32) (Tuning, error) { return run{settings: most, stop: stop}.tune(within) })
	if err == ErrTooCostly {
		err = ErrTooSlow
	}
	if err != nil {
		return Tuning{}, err
	}
	return found, nil
}
