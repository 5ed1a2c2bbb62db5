/** Argon2 password hashing. Proved code computes the hashes, except the compression on AVX-512 and ARM64. */
@SuppressWarnings("module") // (the algorithm's name ends with a digit)
module proved.argon2 {
    exports proved.argon2;
}
