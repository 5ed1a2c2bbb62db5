package proved.argon2;

/** The versions of Argon2. */
public enum Version {
    /** Version 0x10, in which a later pass overwrites the blocks. */
    VERSION_10(0x10),
    /** Version 0x13, that of RFC 9106. Choose this one. */
    VERSION_13(0x13);

    final int number;

    Version(int number) {
        this.number = number;
    }
}
