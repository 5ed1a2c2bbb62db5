package proved.argon2;

import java.time.Duration;
import java.util.Optional;

/**
 * Settings that {@link #tune} found.
 *
 * @param settings the settings
 * @param milliseconds the time of a hash, the least of several
 */
public record Tuning(Settings settings, double milliseconds) {
    /** What {@link Native#tune} writes: the memory, the passes, and the time of a hash. */
    private static final int FOUND = 3;

    private static final Duration LONGEST = Duration.ofNanos(Long.MAX_VALUE);

    /**
     * Measures hashes, and finds strong settings whose hash takes at most {@code within} here: it halves the
     * memory of {@code most} until a hash fits, and then adds as many passes as fit, within the default limits.
     * It finds none if even the weakest settings that protect passwords take longer, or need more memory.
     *
     * @param within the longest time of a hash
     * @param most the settings to begin with, which have the most memory
     * @return the settings, or nothing
     */
    public static Optional<Tuning> tune(Duration within, Settings most) {
        long nanoseconds = within.isNegative() ? 0 : (within.compareTo(LONGEST) < 0 ? within : LONGEST).toNanos();
        long[] found = new long[FOUND];
        int number = Native.tune(most.numbers(), nanoseconds, HashQueue.stop(), found);
        if (number == Native.TOO_COSTLY) {
            return Optional.empty();
        }
        if (number != Native.OK) {
            throw Argon2Exception.of(number);
        }
        Settings settings = most.withMemory((int) found[0]).withPasses((int) found[1]);
        return Optional.of(new Tuning(settings, found[2] / 1e6));
    }
}
