package proved.argon2;

import java.nio.CharBuffer;
import java.util.HashMap;
import java.util.Map;
import proved.argon2.Argon2Exception.Reason;

/**
 * Hashes with the newest of several peppers, and verifies with the one whose ID is stored beside the hash.
 *
 * <p>Store the ID beside the encoded hash, which does not contain the key. To replace a key, put a new one first.
 * Remove the old one once {@code verifyAndUpdate} has replaced all of its hashes.
 *
 * <p>A hash whose ID is null has no pepper, and is rejected: otherwise whoever can write to the store could add a
 * hash that needs no key. Use {@link #acceptUnpeppered} while a store still has such hashes.
 */
public final class Peppers {
    private final String newest;
    /** A hasher for each ID, and for null if hashes without a pepper are accepted. */
    private final Map<String, PasswordHasher> hashers;

    /**
     * A secret key and its ID.
     *
     * @param id the ID, not null
     * @param key the key, not empty
     */
    public record Pepper(String id, byte[] key) {}

    /**
     * What to store for a user.
     *
     * @param keyId the ID of the pepper
     * @param encoded the encoded hash
     */
    public record Stored(String keyId, String encoded) {}

    /**
     * Peppers for a hasher. Wrong ones throw {@link Reason#INVALID_PEPPERS}.
     *
     * @param hasher the hasher
     * @param peppers the peppers, the newest first
     */
    public Peppers(PasswordHasher hasher, Pepper... peppers) {
        Argon2Exception.require(peppers.length > 0, Reason.INVALID_PEPPERS);
        newest = peppers[0].id;
        hashers = new HashMap<>();
        for (Pepper pepper : peppers) {
            PasswordHasher known = hashers.put(pepper.id, hasher.withPepper(pepper.key));
            Argon2Exception.require(pepper.id != null && known == null, Reason.INVALID_PEPPERS);
        }
    }

    /** A copy that accepts hashes without a pepper. */
    private Peppers(Peppers other) {
        newest = other.newest;
        hashers = new HashMap<>(other.hashers);
        hashers.put(null, hashers.get(newest).withoutPepper());
    }

    /** {@return the same peppers, which also verify and renew hashes whose ID is null} */
    public Peppers acceptUnpeppered() {
        return new Peppers(this);
    }

    /**
     * {@return the hash of a password with the newest pepper}
     *
     * @param password the password, hashed as UTF-8
     */
    public Stored hash(char[] password) {
        return PasswordHasher.encoded(CharBuffer.wrap(password), this::hash);
    }

    /**
     * {@return the hash of a password with the newest pepper}
     *
     * @param password the password
     */
    public Stored hash(byte[] password) {
        return new Stored(newest, hashers.get(newest).hash(password));
    }

    /**
     * {@return whether the password is right, and what to store if the hash has an older pepper or other settings}
     *
     * @param id the ID that is stored beside the hash
     * @param stored the encoded hash
     * @param password the password, hashed as UTF-8
     */
    public Verdict<Stored> verifyAndUpdate(String id, String stored, char[] password) {
        return PasswordHasher.encoded(CharBuffer.wrap(password), bytes -> verifyAndUpdate(id, stored, bytes));
    }

    /**
     * {@return whether the password is right, and what to store if the hash has an older pepper or other settings}
     *
     * @param id the ID that is stored beside the hash
     * @param stored the encoded hash
     * @param password the password
     */
    public Verdict<Stored> verifyAndUpdate(String id, String stored, byte[] password) {
        PasswordHasher hasher = hashers.get(id);
        Argon2Exception.require(hasher != null, Reason.UNKNOWN_PEPPER);
        Verdict<String> verdict = hasher.verifyAndUpdate(stored, password, hashers.get(newest));
        return new Verdict<>(verdict.matches(), verdict.update().map(hash -> new Stored(newest, hash)));
    }

    /**
     * {@return false, taking as long as verifying a hash with the newest pepper} For a user who does not exist.
     *
     * @param password the password, hashed as UTF-8
     */
    public boolean verifyUnknown(char[] password) {
        return hashers.get(newest).verifyUnknown(password);
    }

    /**
     * {@return false, taking as long as verifying a hash with the newest pepper} For a user who does not exist.
     *
     * @param password the password
     */
    public boolean verifyUnknown(byte[] password) {
        return hashers.get(newest).verifyUnknown(password);
    }
}
