package argon2

import (
	"fmt"
	"math"
	"os"
	"runtime"
	"runtime/debug"
	"strings"
	"sync"
	"syscall"
	"testing"
	"time"
)

// kib returns a number of this process's memory, in KiB.
func kib(name string) (number uint64) {
	_, rest, _ := strings.Cut(string(must(os.ReadFile("/proc/self/status"))), name)
	must(fmt.Sscan(rest, &number))
	return number
}

// settle waits until finalizers have freed what is unreachable, and returns memory to the system.
func settle() {
	for i := 0; i < 2; i++ {
		done, last := make(chan bool), new([64]byte)
		runtime.SetFinalizer(last, func(*[64]byte) { close(done) })
		runtime.GC()
		<-done
	}
	debug.FreeOSMemory()
}

// TestMemoryDoesNotGrow measures 10,200 calls, and Hashers that are forgotten with their buffers.
func TestMemoryDoesNotGrow(t *testing.T) {
	h, larger := must(NewHasher(small(), 2, 0)), small(func(s *Settings) { s.Memory = 128 })
	calls := func(count int) {
		for i := 0; i < count; i++ {
			must(Verify(must(h.Hash(ctx, password)), password))
			must(HashRaw(password, password, small()))
			must(NewHasher(small(), 1024, 0)) // (16 KiB for the places of its buffers)
			if i%200 == 0 {
				settle() // (otherwise a busy machine frees thousands later, and the heap of C keeps their memory)
				other := must(NewHasher(small(), 1, 0))
				must(other.Hash(ctx, password))
				must(other.With(larger).Hash(ctx, password))
			}
		}
	}
	calls(4000) // until then, the memory of the race detector grows
	settle()
	before := kib("VmRSS:")
	calls(3400)
	settle()
	if after := kib("VmRSS:"); after > before+8192 {
		t.Errorf("%d KiB grew to %d", before, after)
	}
}

// TestBuffersAreKeptAndFreedByATimer makes no call while it waits for the timer of a burst of hashes.
func TestBuffersAreKeptAndFreedByATimer(t *testing.T) {
	h := must(NewHasher(small(func(s *Settings) { s.Memory = 128 << 10 }), 2, 100))
	debug.FreeOSMemory()
	before, begun := kib("VmRSS:"), time.Now()
	var group sync.WaitGroup
	for i := 0; i < 8; i++ {
		group.Add(1)
		go func() {
			defer group.Done()
			must(h.Hash(ctx, password))
		}()
	}
	group.Wait()
	isKept := func() bool { return kib("VmRSS:") > before+40<<10 } // (timers of other tests may free some memory)
	if !isKept() {
		t.Error("no buffer is kept", before, kib("VmRSS:"))
	}
	waitFor(t, "the buffers are freed", func() bool { return !isKept() })
	if took := time.Since(begun); took < idle {
		t.Error("the buffers were freed after", took)
	}
	must(h.Hash(ctx, password))
	if !isKept() {
		t.Error("no buffer is kept after the timer")
	}
	waitFor(t, "the buffer is freed", func() bool { return !isKept() })
	runtime.KeepAlive(h)
}

// TestSettingsAreCheckedBeforeASaltIsMade passes settings with a salt of 4 GiB: Go would end the process for lack of
// memory.
func TestSettingsAreCheckedBeforeASaltIsMade(t *testing.T) {
	var limit syscall.Rlimit
	must(0, syscall.Getrlimit(syscall.RLIMIT_AS, &limit))
	before, invalid := limit, small(func(s *Settings) { s.Time, s.SaltLength = 0, math.MaxUint32 })
	limit.Cur = (kib("VmSize:") + 32<<10) << 10
	must(0, syscall.Setrlimit(syscall.RLIMIT_AS, &limit))
	_, one := Hash(password, invalid)
	_, two := VerifyUnknown(password, invalid)
	invalid.Memory, invalid.Lanes = OWASP5().Memory, 0
	_, three := Tune(ctx, time.Minute, invalid)
	must(0, syscall.Setrlimit(syscall.RLIMIT_AS, &before))
	if one != ErrTimeTooSmall || two != ErrTimeTooSmall || three != ErrLanesTooFew {
		t.Error(one, two, three)
	}
}
