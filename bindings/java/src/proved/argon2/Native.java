package proved.argon2;

import java.io.IOException;
import java.io.InputStream;
import java.nio.file.Files;
import java.nio.file.Path;
import java.util.Locale;
import java.util.function.BooleanSupplier;

/** The calls of the C library. A call that can fail returns the number of its error or 0. */
final class Native {
    static final int OK = 0;
    static final int MISMATCH = 64;
    static final int NEEDS_REHASH = 68;
    static final int TOO_COSTLY = 69;

    /** No kept buffers. */
    static final long NONE = 0;

    /** The calls of {@link #make}, in the order of proved_argon2_java.c. */
    enum Call { HASH, HASH_RAW, VERIFY, VERIFY_UNKNOWN, NEEDS_REHASH, RENEW }

    /**
     * The property that names the library's file, where the one in the jar cannot be used. Java loads one file for one
     * class loader only, so a second class loader needs another copy of the file.
     */
    private static final String PROPERTY = "proved.argon2.library";

    /** What to do if there is no library for this system. */
    private static final String MISSING = "the jar has no proved/argon2/native/%s. Compile it from the C code in the "
        + "jar of sources (docs/INSTALL.md), and name it with -D" + PROPERTY + "=FILE";

    /** What to do if a library cannot be loaded, and why it cannot. */
    private static final String REMEDIES = "%s cannot be loaded: %s. If temporary folders are read-only or mounted "
        + "noexec, name another one with -Djava.io.tmpdir=FOLDER, or unpack the library from the jar, and name it with "
        + "-D" + PROPERTY + "=FILE";

    /** Why the library could not be loaded, or null. */
    private static final UnsatisfiedLinkError FAILURE = load();

    private Native() {}

    private static UnsatisfiedLinkError load() {
        String named = System.getProperty(PROPERTY);
        try {
            if (named == null) {
                loadOwn();
            } else {
                System.load(Path.of(named).toAbsolutePath().toString());
            }
            return null;
        } catch (UnsatisfiedLinkError error) {
            return error;
        }
    }

    /**
     * Throws why the library could not be loaded. Each attempt says so: if the initializer threw it, Java would throw a
     * NoClassDefFoundError without a reason from the second one on.
     */
    static void requireLoaded() {
        if (FAILURE != null) {
            throw (Error) new UnsatisfiedLinkError(FAILURE.getMessage()).initCause(FAILURE);
        }
    }

    /** The error of a hash with these {@link Settings#numbers}, or 0. */
    static native int check(int[] settings);

    /** The length of the encoded hash. */
    static native long encodedLength(int[] settings);

    /**
     * Makes a call. {@code HASH} writes the encoded hash, and a zero, to {@code output}. {@code HASH_RAW} writes the
     * raw hash. Other calls read {@code text}. {@code VERIFY} returns {@link #NEEDS_REHASH} for a match with other
     * settings or another length of the salt. {@code RENEW} does so if it has written a new encoded hash, and a zero.
     * It makes the salt itself: {@code salt} is the new pepper, if there is one. {@code buffers} is the handle of kept
     * buffers, or {@link #NONE}. {@code isStopped} is called before each hash and after each slice. If it is null,
     * nothing stops the call.
     */
    static native int make(int call, int[] settings, long[] limits, long buffers, BooleanSupplier isStopped,
        byte[] password, byte[] salt, byte[] pepper, byte[] data, byte[] text, byte[] output);

    /** Writes the default limits, each raised to that of the settings. */
    static native void limitsFor(int[] settings, long[] limits);

    /** How many hashes fit into this many bytes. */
    static native long hashesAtOnce(int[] settings, long bytes);

    /** Searches for settings, and writes the memory, the passes and the nanoseconds of a hash to {@code found}. */
    static native int tune(int[] settings, long nanoseconds, BooleanSupplier isStopped, long[] found);

    /** Makes a handle of at most so many kept buffers, and returns it, or {@link #NONE} without memory for it. */
    static native long newBuffers(int[] settings, int most);

    /** Frees the kept buffers that have been idle for ten seconds. */
    static native void freeIdle(long buffers);

    /** Frees a handle and its buffers, which no call uses. */
    static native void freeBuffers(long buffers);

    /** The message of an error. */
    static native String message(int number);

    /** Loads the library of the jar. */
    private static void loadOwn() {
        String system = System.getProperty("os.name").toLowerCase(Locale.ROOT).split(" ")[0]; // `mac os x`
        String machine = System.getProperty("os.arch").replace("amd64", "x86_64");
        String file = system + "-" + machine + (system.equals("windows") ? ".dll" : ".so");
        try (InputStream library = Native.class.getResourceAsStream("native/" + file)) {
            if (library != null) {
                loadCopy(library, file);
                return;
            }
        } catch (IOException | UnsatisfiedLinkError error) {
            throw (Error) new UnsatisfiedLinkError(REMEDIES.formatted(file, error.getMessage())).initCause(error);
        }
        throw new UnsatisfiedLinkError(MISSING.formatted(file));
    }

    /** Loads a library from a private folder, which is deleted if the system allows that. */
    private static void loadCopy(InputStream library, String file) throws IOException {
        Path folder = Files.createTempDirectory("proved-argon2-"); // (Java makes it with the mode 0700)
        Path copy = folder.resolve(file);
        try {
            Files.copy(library, copy);
            System.load(copy.toString());
        } finally {
            copy.toFile().delete(); // (Windows keeps a library that is loaded)
            folder.toFile().delete();
        }
    }
}
