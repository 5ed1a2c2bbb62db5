package proved.argon2;

import java.nio.ByteBuffer;
import java.nio.CharBuffer;
import java.nio.charset.StandardCharsets;
import java.security.SecureRandom;
import java.util.Arrays;
import java.util.List;
import java.util.Objects;
import java.util.Optional;
import java.util.function.Function;
import proved.argon2.Argon2Exception.Reason;

/**
 * Hashes and verifies passwords. A hasher never changes, and any number of threads may use it.
 *
 * <p>Passwords are {@code char[]}, which are hashed as UTF-8, or {@code byte[]}. A call clears each copy that it makes
 * of a password, and leaves the caller's array as it is. A call blocks its thread, and also the carrier of a virtual
 * thread, until it returns; nothing stops it. Use a {@link HashQueue} in virtual threads, to stop calls, or to limit
 * how many hashes are computed at a time.
 *
 * <p>Each call may throw an {@link Argon2Exception}. A wrong password is not an exception.
 *
 * <p>The class has the methods of Spring's {@code PasswordEncoder}: {@link #encode}, {@link #matches} and {@link
 * #upgradeEncoding}. So this is an encoder: {@code class Encoder extends PasswordHasher implements PasswordEncoder {}}
 * Its constructor can pass a hasher with a pepper or limits to {@link #PasswordHasher(PasswordHasher)}.
 */
public class PasswordHasher {
    private static final byte[] NONE = {};
    /** The most bytes that a {@code char} has in UTF-8. */
    private static final int MOST_BYTES = 3;
    private static final int LONGEST_ARRAY = Integer.MAX_VALUE - 8;

    private final SecureRandom random = new SecureRandom();
    private final Settings settings;
    private final Limits limits;
    private final byte[] pepper;
    private final byte[] associatedData;

    /** A hasher with {@link Settings#owasp2}. */
    public PasswordHasher() {
        this(Settings.owasp2());
    }

    /**
     * A hasher with these settings. It verifies hashes within the default limits, raised to these settings.
     *
     * @param settings the settings of new hashes
     */
    public PasswordHasher(Settings settings) {
        this(settings, Limits.atLeast(settings), NONE, NONE);
    }

    /**
     * A copy of a hasher, for classes that extend this one.
     *
     * @param other the hasher to copy
     */
    protected PasswordHasher(PasswordHasher other) {
        this(other.settings, other.limits, other.pepper, other.associatedData);
    }

    private PasswordHasher(Settings settings, Limits limits, byte[] pepper, byte[] associatedData) {
        this.settings = settings;
        this.limits = Objects.requireNonNull(limits);
        this.pepper = pepper;
        this.associatedData = associatedData;
    }

    /**
     * {@return the same hasher with other limits for stored hashes}
     *
     * @param most the limits
     */
    public final PasswordHasher withLimits(Limits most) {
        return new PasswordHasher(settings, most, pepper, associatedData);
    }

    /**
     * {@return the same hasher with a pepper, a secret key} {@link Peppers} manages several. An empty key throws {@link
     * Reason#INVALID_PEPPERS}: it would be no pepper.
     *
     * @param key the key, which is copied
     */
    public final PasswordHasher withPepper(byte[] key) {
        Argon2Exception.require(key.length > 0, Reason.INVALID_PEPPERS);
        return new PasswordHasher(settings, limits, key.clone(), associatedData);
    }

    /**
     * {@return the same hasher with associated data, such as the user's ID} With other data a hash does not match.
     *
     * @param data the data, which is copied
     */
    public final PasswordHasher withAssociatedData(byte[] data) {
        return new PasswordHasher(settings, limits, pepper, data.clone());
    }

    /**
     * {@return the encoded hash of a password, with a new random salt}
     *
     * @param password the password, hashed as UTF-8
     */
    public final String hash(char[] password) {
        return encoded(CharBuffer.wrap(password), this::hash);
    }

    /**
     * {@return the encoded hash of a password, with a new random salt}
     *
     * @param password the password
     */
    public final String hash(byte[] password) {
        byte[] salt = new byte[settings.saltLength()];
        random.nextBytes(salt);
        return hash(password, salt);
    }

    /**
     * {@return the raw hash of a password, for example a key}
     *
     * @param password the password, hashed as UTF-8
     * @param salt the salt, at least 8 bytes; the length in the settings has no effect
     */
    public final byte[] hashRaw(char[] password, byte[] salt) {
        return encoded(CharBuffer.wrap(password), bytes -> hashRaw(bytes, salt));
    }

    /**
     * {@return the raw hash of a password, for example a key}
     *
     * @param password the password
     * @param salt the salt, at least 8 bytes; the length in the settings has no effect
     */
    public final byte[] hashRaw(byte[] password, byte[] salt) {
        byte[] tag = output(settings.hashLength());
        call(Native.Call.HASH_RAW, password, Objects.requireNonNull(salt), NONE, tag);
        return tag;
    }

    /**
     * {@return whether a stored hash is that of the password}
     *
     * @param stored the encoded hash
     * @param password the password, hashed as UTF-8
     */
    public final boolean verify(String stored, char[] password) {
        return encoded(CharBuffer.wrap(password), bytes -> verify(stored, bytes));
    }

    /**
     * {@return whether a stored hash is that of the password}
     *
     * @param stored the encoded hash
     * @param password the password
     */
    public final boolean verify(String stored, byte[] password) {
        byte[] text = stored.getBytes(StandardCharsets.UTF_8);
        return call(Native.Call.VERIFY, password, NONE, text, NONE, Native.MISMATCH, Native.NEEDS_REHASH)
            != Native.MISMATCH;
    }

    /**
     * {@return whether the password is right, and the new hash to store if the stored one has other settings}
     *
     * @param stored the encoded hash
     * @param password the password, hashed as UTF-8
     */
    public final Verdict<String> verifyAndUpdate(String stored, char[] password) {
        return encoded(CharBuffer.wrap(password), bytes -> verifyAndUpdate(stored, bytes));
    }

    /**
     * {@return whether the password is right, and the new hash to store if the stored one has other settings}
     *
     * @param stored the encoded hash
     * @param password the password
     */
    public final Verdict<String> verifyAndUpdate(String stored, byte[] password) {
        return verifyAndUpdate(stored, password, this);
    }

    /**
     * {@return false, taking as long as verifying a hash with these settings} For a user who does not exist.
     *
     * @param password the password, hashed as UTF-8
     */
    public final boolean verifyUnknown(char[] password) {
        return encoded(CharBuffer.wrap(password), this::verifyUnknown);
    }

    /**
     * {@return false, taking as long as verifying a hash with these settings} For a user who does not exist.
     *
     * @param password the password
     */
    public final boolean verifyUnknown(byte[] password) {
        call(Native.Call.VERIFY_UNKNOWN, password, NONE, NONE, NONE, Native.MISMATCH);
        return false;
    }

    /**
     * {@return whether a stored hash has other settings, or a salt of another length} It computes no hash.
     *
     * @param stored the encoded hash
     */
    public final boolean needsRehash(String stored) {
        byte[] text = stored.getBytes(StandardCharsets.UTF_8);
        return call(Native.Call.NEEDS_REHASH, NONE, NONE, text, NONE, Native.NEEDS_REHASH) == Native.NEEDS_REHASH;
    }

    /**
     * {@return what {@link #hash(char[])} does}
     *
     * @param password the password, hashed as UTF-8
     */
    public final String encode(CharSequence password) {
        return encoded(CharBuffer.wrap(password), this::hash);
    }

    /**
     * {@return what {@link #verify(String, char[])} does}
     *
     * @param password the password, hashed as UTF-8
     * @param stored the encoded hash; null or "" means {@link #verifyUnknown(char[])}
     */
    public final boolean matches(CharSequence password, String stored) {
        boolean isKnown = stored != null && !stored.isEmpty();
        return encoded(CharBuffer.wrap(password), bytes -> isKnown ? verify(stored, bytes) : verifyUnknown(bytes));
    }

    /**
     * {@return what {@link #needsRehash} does}
     *
     * @param stored the encoded hash
     */
    public final boolean upgradeEncoding(String stored) {
        return needsRehash(stored);
    }

    final PasswordHasher withoutPepper() {
        return new PasswordHasher(settings, limits, NONE, associatedData);
    }

    final String hash(byte[] password, byte[] salt) {
        byte[] text = output(Native.encodedLength(settings.numbers()) + 1);
        call(Native.Call.HASH, password, salt, NONE, text);
        return textOf(text);
    }

    /** An encoded hash, behind which the library wrote a zero. */
    private static String textOf(byte[] text) {
        return new String(text, 0, text.length - 1, StandardCharsets.US_ASCII);
    }

    private static byte[] output(long length) {
        Argon2Exception.require(length < LONGEST_ARRAY, Reason.OUT_OF_MEMORY);
        return new byte[(int) length];
    }

    /**
     * Verifies a password, and hashes it with the pepper of the newest hasher if the hash's pepper or settings differ.
     * Without room for a new hash, the library makes none: the user can log in with the old one.
     */
    final Verdict<String> verifyAndUpdate(String stored, byte[] password, PasswordHasher newest) {
        long length = Native.encodedLength(settings.numbers()) + 1;
        byte[] update = length < LONGEST_ARRAY ? new byte[(int) length] : NONE;
        byte[] newPepper = newest == this ? NONE : newest.pepper;
        int number = call(Native.Call.RENEW, password, newPepper, stored.getBytes(StandardCharsets.UTF_8), update,
            Native.MISMATCH, Native.NEEDS_REHASH);
        boolean isRenewed = number == Native.NEEDS_REHASH;
        return new Verdict<>(number != Native.MISMATCH, isRenewed ? Optional.of(textOf(update)) : Optional.empty());
    }

    /** Makes a call with the UTF-8 of a password, and clears it. */
    static <T> T encoded(CharBuffer password, Function<byte[], T> call) {
        Argon2Exception.require(password.remaining() <= LONGEST_ARRAY / MOST_BYTES, Reason.OUT_OF_MEMORY);
        ByteBuffer buffer = ByteBuffer.allocate(MOST_BYTES * password.remaining());
        byte[] bytes = NONE;
        try {
            boolean isUnicode = !StandardCharsets.UTF_8.newEncoder().encode(password, buffer, true).isError();
            Argon2Exception.require(isUnicode, Reason.NOT_UNICODE);
            bytes = Arrays.copyOf(buffer.array(), buffer.position());
            return call.apply(bytes);
        } finally {
            Arrays.fill(buffer.array(), (byte) 0);
            Arrays.fill(bytes, (byte) 0);
        }
    }

    /** Makes a call. A number other than 0 and these verdicts is an error. */
    private int call(
            Native.Call call, byte[] password, byte[] salt, byte[] text, byte[] output, Integer... verdicts) {
        int number = Native.make(call.ordinal(), settings.numbers(), limits.numbers(), HashQueue.buffersFor(settings),
            HashQueue.stop(), Objects.requireNonNull(password), salt, pepper, associatedData, text, output);
        if (number != Native.OK && !List.of(verdicts).contains(number)) {
            throw Argon2Exception.of(number);
        }
        return number;
    }
}
