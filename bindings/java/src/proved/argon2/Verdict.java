package proved.argon2;

import java.util.Optional;

/**
 * Whether a password matches, and what to store from now on.
 *
 * @param <T> an encoded hash, or one with the ID of its pepper
 * @param matches whether the password is right
 * @param update what to store, if the password is right and what was stored is not current. Otherwise, or if the new
 *     hash could not be computed, it is empty
 */
public record Verdict<T>(boolean matches, Optional<T> update) {}
