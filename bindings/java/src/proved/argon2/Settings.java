package proved.argon2;

/**
 * The settings of a hash. Settings that no hash can have are rejected with an {@link Argon2Exception}. The recommended
 * settings below have one lane; docs/USE.md lists their memory and passes. RFC 9106 recommends four lanes for its two
 * settings: see {@link #withLanes}.
 *
 * @param variant the variant
 * @param version the version
 * @param memory the memory in KiB, at least 8 for each lane
 * @param passes the passes over the memory
 * @param lanes the lanes, which the hash depends on. A hash uses a thread for each lane if that is faster
 * @param hashLength the length of the hash in bytes, at least 4
 * @param saltLength the length of the salt in bytes, at least 8
 */
public record Settings(
        Variant variant, Version version, int memory, int passes, int lanes, int hashLength, int saltLength) {
    /**
     * Checks the settings.
     *
     * @param variant the variant
     * @param version the version
     * @param memory the memory in KiB
     * @param passes the passes
     * @param lanes the lanes
     * @param hashLength the length of the hash in bytes
     * @param saltLength the length of the salt in bytes
     */
    public Settings {
        int[] numbers = {variant.ordinal(), version.number, Math.max(0, memory), Math.max(0, passes),
            Math.max(0, lanes), Math.max(0, hashLength), Math.max(0, saltLength)};
        Native.requireLoaded(); // (each call has settings)
        int error = Native.check(numbers);
        if (error != Native.OK) {
            throw Argon2Exception.of(error);
        }
    }

    /** {@return OWASP's first recommendation} */
    public static Settings owasp1() { return preset(47104, 1); }
    /** {@return OWASP's second recommendation} */
    public static Settings owasp2() { return preset(19456, 2); }
    /** {@return OWASP's third recommendation} */
    public static Settings owasp3() { return preset(12288, 3); }
    /** {@return OWASP's fourth recommendation} */
    public static Settings owasp4() { return preset(9216, 4); }
    /** {@return OWASP's fifth recommendation} */
    public static Settings owasp5() { return preset(7168, 5); }
    /** {@return RFC 9106's first recommendation (section 4)} */
    public static Settings rfc9106() { return preset(2097152, 1); }
    /** {@return RFC 9106's recommendation for little memory (section 4)} */
    public static Settings rfc9106LowMem() { return preset(65536, 3); }

    /**
     * {@return the same settings with other memory}
     *
     * @param kib the memory in KiB
     */
    public Settings withMemory(int kib) {
        return new Settings(variant, version, kib, passes, lanes, hashLength, saltLength);
    }

    /**
     * {@return the same settings with other passes}
     *
     * @param count the passes
     */
    public Settings withPasses(int count) {
        return new Settings(variant, version, memory, count, lanes, hashLength, saltLength);
    }

    /**
     * {@return the same settings with other lanes}
     *
     * @param count the lanes
     */
    public Settings withLanes(int count) {
        return new Settings(variant, version, memory, passes, count, hashLength, saltLength);
    }

    int[] numbers() {
        return new int[] {variant.ordinal(), version.number, memory, passes, lanes, hashLength, saltLength};
    }

    private static Settings preset(int memory, int passes) {
        return new Settings(Variant.ARGON2ID, Version.VERSION_13, memory, passes, 1, 32, 16);
    }
}
