package proved.argon2;

/** The variants of Argon2, in the order of their numbers. */
public enum Variant {
    /** The password determines which earlier block a block refers to. */
    ARGON2D,
    /** Only the block's position determines that. */
    ARGON2I,
    /** The position determines it in the first half of the first pass, then the password. Choose this one. */
    ARGON2ID
}
