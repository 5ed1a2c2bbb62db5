package proved.argon2;

import static org.junit.jupiter.api.Assertions.*;
import static proved.argon2.Argon2Exception.Reason.*;
import static proved.argon2.HashesTest.bytes;
import static java.nio.charset.StandardCharsets.US_ASCII;

import java.time.Duration;
import java.util.*;
import java.util.function.*;
import java.util.stream.Stream;
import org.junit.jupiter.api.*;
import proved.argon2.Argon2Exception.Reason;

/** Calls return the right value for each number of the library. A stub returns the numbers set here. */
@Tag("codes")
class CodesTest {
    private static final byte[] PASSWORD = bytes("word");
    private static final String STORED = "$argon2id$x";
    private static final int NOT_ASCII = 66;
    private final PasswordHasher hasher;

    CodesTest() {
        Native.message(0); // loads the library
        set(0, 0, 0);
        hasher = new PasswordHasher(new Settings(Variant.ARGON2ID, Version.VERSION_13, 64, 3, 4, 5, 6))
            .withPepper(bytes("key")).withAssociatedData(bytes("data")).withLimits(new Limits(10, 11, 12, 13));
    }

    private static native void set(int check, int then, int read);

    /** {@return the arguments of the last call} */
    private static native String seen();

    /** Sets each number, and expects its value, as in {@code 0=true 64=false}, or else its error. */
    private static void compare(String values, IntConsumer setting, Supplier<Object> call) {
        for (String digits : System.getProperty("numbers").split(" ")) {
            int number = Integer.parseUnsignedInt(digits);
            setting.accept(number);
            Optional<String> value = Stream.of(values.split(" "))
                .filter(pair -> pair.startsWith(number + "=") && !pair.endsWith("=costly")).findAny();
            if (value.isPresent()) {
                assertEquals(value.get(), number + "=" + call.get());
            } else {
                Reason expected = number == NOT_ASCII ? DECODING_FAIL : reasonOf(digits);
                Argon2Exception error = assertThrows(Argon2Exception.class, call::get, digits);
                assertEquals(expected, error.reason());
                String known = number == NOT_ASCII ? "N019" : "N0*" + digits;
                String message = expected == UNEXPECTED ? ".*: " + digits : known;
                assertTrue(error.getMessage().matches(message), error.getMessage());
            }
        }
    }

    /** The reason that is called as the library's header calls a number. */
    private static Reason reasonOf(String digits) {
        return Stream.of(System.getProperty("names").split(" ")).filter(pair -> pair.startsWith(digits + "="))
            .flatMap(pair -> Stream.of(Reason.values()).filter(reason -> pair.endsWith("=" + reason))).findAny()
            .orElse(UNEXPECTED);
    }

    private static void compare(String values, Supplier<Object> call) {
        compare(values, number -> set(0, number, 0), call);
    }

    private String renewed() {
        Verdict<String> verdict = hasher.verifyAndUpdate(STORED, PASSWORD);
        return verdict.matches() + verdict.update().orElse("").replace("x".repeat(12), "text");
    }

    private static String numbersOf(Tuning found) {
        return "[" + found.settings().memory() + "," + found.settings().passes() + "]";
    }

    private static String table(String name) {
        return System.getProperty("codes." + name);
    }

    @Test
    void eachNumberIsAValueOrItsError() {
        compare("0=true", number -> set(number, 0, 0), () -> Settings.owasp2() != null);
        compare(table("hash_raw"),
            () -> new String(hasher.hashRaw(PASSWORD, bytes("somesalt")), US_ASCII).replace("x".repeat(5), "tag"));
        compare(table("hash_encoded"), () -> hasher.hash(PASSWORD, bytes("somesalt")).replace("x".repeat(12), "text"));
        compare(table("verify_encoded_within") + " 68=true", () -> hasher.verify(STORED, PASSWORD));
        compare("0=true 64=false 68=truetext", () -> renewed());
        compare("0=false 64=false", () -> hasher.verifyUnknown(PASSWORD));
        compare("0=[64,3] 69=none", () -> Tuning.tune(Duration.ofSeconds(1), new Settings(
            Variant.ARGON2ID, Version.VERSION_13, 64, 3, 4, 5, 8)).map(CodesTest::numbersOf).orElse("none"));
        compare(table("needs_rehash"), () -> hasher.needsRehash(STORED));
        compare(table("needs_rehash"), number -> set(0, 0, number), () -> hasher.needsRehash(STORED));
    }

    @Test
    void theLibraryIsPassedEachArgument() {
        hasher.hash(PASSWORD, bytes("somesalt"));
        assertTrue(seen().endsWith("|" + System.getProperty("passed.hash_encoded")), seen());
        hasher.hashRaw(PASSWORD, bytes("somesalt"));
        assertTrue(seen().endsWith("|" + System.getProperty("passed.hash_raw")), seen());
        hasher.verify(STORED, PASSWORD);
        assertTrue(seen().endsWith("|" + System.getProperty("passed.verify_encoded_within")), seen());
        hasher.verifyAndUpdate(STORED, PASSWORD);
        assertTrue(seen().endsWith("|renew $argon2id$x word key  data 10 2 19 64 3 4 5 6"), seen());
        hasher.verifyAndUpdate(STORED, PASSWORD, hasher.withPepper(bytes("new")));
        assertTrue(seen().endsWith("|renew $argon2id$x word key new data 10 2 19 64 3 4 5 6"), seen());
        assertEquals(new Limits(64, 8, 9, 10), Limits.atLeast(new Settings(
            Variant.ARGON2ID, Version.VERSION_13, 64, 3, 4, 5, 6)));
        hasher.verifyUnknown(PASSWORD);
        assertTrue(seen().endsWith("|unknown word key 2 19 64 3 4 5"), seen());
    }

    /** It saw the number of threads, the length of the buffers or -1, and what a callback said or -1. */
    @Test
    void onlyAThreadOfAQueueHasBuffersAndCanBeStopped() {
        try (HashQueue queue = new HashQueue(1, 0)) {
            for (Supplier<Object> call : List.<Supplier<Object>>of(() -> hasher.hash(PASSWORD),
                    () -> hasher.hashRaw(PASSWORD, bytes("somesalt")), () -> hasher.verify(STORED, PASSWORD),
                    () -> hasher.verifyUnknown(PASSWORD))) {
                call.get();
                assertTrue(seen().startsWith("4294967295|-1|-1|"), seen());
                queue.run(call);
                assertTrue(seen().startsWith("4294967295|65536|0|"), seen());
            }
        }
    }
}
