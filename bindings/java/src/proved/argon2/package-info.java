/**
 * Hashes and verifies passwords with Argon2. Begin with {@link proved.argon2.PasswordHasher}; a service also needs a
 * {@link proved.argon2.HashQueue}, which limits how many hashes are computed at a time.
 */
package proved.argon2;
