package proved.argon2;

/**
 * The highest cost of a stored hash that is still verified.
 *
 * @param memory the memory in KiB
 * @param passes the passes over the memory
 * @param lanes the lanes
 * @param work the memory in KiB times the passes, which the time is proportional to
 */
public record Limits(int memory, int passes, int lanes, long work) {
    /** The library's default limits, which docs/USE.md lists. */
    public static final Limits DEFAULT = new Limits(2097152, 10, 16, 4194304L);

    /** No limits, for hashes that nobody else can write. */
    public static final Limits NONE =
        new Limits(Integer.MAX_VALUE, Integer.MAX_VALUE, Integer.MAX_VALUE, Long.MAX_VALUE);

    /**
     * {@return the default limits, each raised to that of these settings if that is more}
     *
     * @param settings the settings whose hashes have to be within the limits
     */
    public static Limits atLeast(Settings settings) {
        long[] most = new long[4];
        Native.limitsFor(settings.numbers(), most);
        return new Limits((int) most[0], (int) most[1], (int) most[2], most[3]);
    }

    /** The library's numbers are unsigned: the highest {@code int} or {@code long} becomes their highest, no limit. */
    long[] numbers() {
        long[] numbers = {memory, passes, lanes, work};
        for (int i = 0; i < numbers.length; i++) {
            numbers[i] = numbers[i] == (i < 3 ? Integer.MAX_VALUE : Long.MAX_VALUE) ? -1 : Math.max(0, numbers[i]);
        }
        return numbers;
    }
}
