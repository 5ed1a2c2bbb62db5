package proved.argon2;

import static org.junit.jupiter.api.Assertions.*;
import static proved.argon2.Argon2Exception.Reason.*;
import static proved.argon2.HashesTest.bytes;

import java.lang.reflect.Proxy;
import java.util.*;
import java.util.stream.Stream;
import org.junit.jupiter.api.*;
import org.junit.jupiter.api.function.Executable;
import org.junit.jupiter.params.ParameterizedTest;
import org.junit.jupiter.params.provider.*;
import proved.argon2.Argon2Exception.Reason;

class PasswordHasherTest {
    static final Settings SMALL = Settings.owasp2().withMemory(64);
    /** A hash that takes minutes, but little memory. */
    static final PasswordHasher ENDLESS = new PasswordHasher(SMALL.withMemory(1024).withPasses(1_000_000));
    /** From the tests of libargon2: the password is "password". */
    static final String STORED = "$argon2id$v=19$m=256,t=2,p=1$c29tZXNhbHQ$nf65EOgLrQMR/uIPnA4rEsF5h7TKyQwu9U1bMCHGi/4";
    private final byte[] password = bytes("password");
    private final PasswordHasher hasher = new PasswordHasher(SMALL);

    static void assertFails(Reason reason, Executable call) {
        assertEquals(reason, assertThrows(Argon2Exception.class, call).reason());
    }

    private static Settings settings(int memory, int passes, int lanes, int hashLength, int saltLength) {
        return new Settings(Variant.ARGON2ID, Version.VERSION_13, memory, passes, lanes, hashLength, saltLength);
    }

    @ParameterizedTest
    @ValueSource(strings = {"", "\0", "a\0b", "ä€😀"})
    void aHashVerifiesOnlyTheUtf8OfItsPassword(String text) {
        String stored = new PasswordHasher().hash(text.toCharArray());
        assertTrue(stored.startsWith("$argon2id$v=19$m=19456,t=2,p=1$"), stored);
        assertNotEquals(stored, new PasswordHasher().hash(text.toCharArray()));
        assertTrue(hasher.verify(stored, text.toCharArray()) && hasher.verify(stored, bytes(text)));
        assertFalse(hasher.verify(stored, (text + "\0").toCharArray()) || hasher.verify(stored, bytes(text + "\0")));
        assertFalse(hasher.verifyUnknown(text.toCharArray()));
    }

    /** All eight salts have the same byte somewhere only once in 2^52 times. */
    @Test
    void eachByteOfASaltIsRandom() {
        List<byte[]> salts = Stream.generate(() -> hasher.hash(password)).limit(8)
            .map(stored -> Base64.getDecoder().decode(stored.split("\\$")[4])).toList();
        for (int at = 0; at < SMALL.saltLength(); at++) {
            int index = at;
            assertTrue(salts.stream().map(salt -> salt[index]).distinct().count() > 1, "byte " + at);
        }
    }

    @ParameterizedTest
    @ValueSource(strings = {"\ud800", "\udc00", "\ud800\ud800", "a\ud800a"})
    void halfOfASurrogatePairIsRejected(String text) {
        char[] half = text.toCharArray();
        assertFails(NOT_UNICODE, () -> hasher.hash(half));
        assertFails(NOT_UNICODE, () -> hasher.verify(STORED, half));
        assertFails(NOT_UNICODE, () -> hasher.verifyUnknown(half));
        assertArrayEquals(text.toCharArray(), half);
    }

    @Test
    void aPasswordThatFitsIntoNoArrayIsRejected() {
        CharSequence longest = (CharSequence) Proxy.newProxyInstance(getClass().getClassLoader(),
            new Class<?>[] {CharSequence.class}, (proxy, method, arguments) -> Integer.MAX_VALUE); // its length
        assertFails(OUT_OF_MEMORY, () -> hasher.encode(longest));
    }

    @Test
    void nullIsRejected() {
        byte[] none = null;
        for (Executable call : new Executable[] {
            () -> hasher.hash(none), () -> hasher.verify(STORED, none), () -> hasher.verifyUnknown(none),
            () -> hasher.verifyAndUpdate(STORED, none), () -> hasher.hash((char[]) null),
            () -> hasher.hashRaw(none, new byte[8]), () -> hasher.hashRaw(password, null),
            () -> hasher.verify(null, new byte[0]), () -> hasher.needsRehash(null), () -> hasher.encode(null),
            () -> hasher.withPepper(null), () -> hasher.withLimits(null), () -> new PasswordHasher((Settings) null),
            () -> new Settings(null, Version.VERSION_13, 64, 1, 1, 32, 16)}) {
            assertThrows(NullPointerException.class, call);
        }
    }

    @ParameterizedTest
    @CsvSource({"MEMORY_TOO_LITTLE, 7, 1, 1, 32, 16", "MEMORY_TOO_LITTLE, -1, 1, 1, 32, 16",
        "TIME_TOO_SMALL, 64, 0, 1, 32, 16", "TIME_TOO_SMALL, 64, -1, 1, 32, 16", "LANES_TOO_FEW, 64, 1, 0, 32, 16",
        "LANES_TOO_FEW, 64, 1, -1, 32, 16", "LANES_TOO_MANY, 64, 1, 16777216, 32, 16",
        "OUTPUT_TOO_SHORT, 64, 1, 1, 3, 16", "OUTPUT_TOO_SHORT, 64, 1, 1, -1, 16", "SALT_TOO_SHORT, 64, 1, 1, 32, 7",
        "SALT_TOO_SHORT, 64, 1, 1, 32, -1"})
    void wrongSettingsAreRejected(Reason reason, int memory, int passes, int lanes, int hash, int salt) {
        assertFails(reason, () -> settings(memory, passes, lanes, hash, salt));
    }

    @ParameterizedTest
    @ValueSource(strings = {"", "\0" + STORED, STORED + "\0", STORED + "ä"})
    void wrongEncodedHashesAreErrors(String wrong) {
        assertFails(DECODING_FAIL, () -> hasher.verify(wrong, password));
        assertFails(DECODING_FAIL, () -> hasher.verifyAndUpdate(wrong, password));
        assertFails(DECODING_FAIL, () -> hasher.needsRehash(wrong));
        assertFails(DECODING_FAIL, () -> hasher.verify(STORED + '\ud800', password));
    }

    @Test
    void limitsAreKept() {
        for (Limits low : List.of(new Limits(256, 2, 1, 511), new Limits(-1, -1, -1, -1))) {
            assertFails(TOO_COSTLY, () -> hasher.withLimits(low).verify(STORED, password));
        }
        assertTrue(hasher.withLimits(new Limits(256, 2, 1, 512)).verify(STORED, password));
        Settings most = SMALL.withPasses(Limits.DEFAULT.passes());
        assertTrue(hasher.verify(new PasswordHasher(most).hash(password), password));
        PasswordHasher strong = new PasswordHasher(SMALL.withPasses(Limits.DEFAULT.passes() + 1));
        String stored = strong.hash(password);
        assertTrue(strong.verify(stored, password));
        assertFails(TOO_COSTLY, () -> hasher.verify(stored, password));
    }

    @Test
    @Tag("terabytes")
    void deniedMemoryIsAnError() {
        PasswordHasher large = new PasswordHasher(SMALL.withMemory(Integer.MAX_VALUE)); // 2 TiB
        assertFails(OUT_OF_MEMORY, () -> large.hash(password));
        assertFails(OUT_OF_MEMORY, () -> large.verifyUnknown(password));
        PasswordHasher longest = new PasswordHasher(settings(64, 1, 1, Integer.MAX_VALUE, 16));
        assertFails(OUT_OF_MEMORY, () -> longest.hash(password));
        assertFails(OUT_OF_MEMORY, () -> longest.hashRaw(password, new byte[8]));
        String stored = STORED.replace("m=256", "m=4294967295");
        assertFails(OUT_OF_MEMORY, () -> hasher.withLimits(Limits.NONE).verify(stored, password));
        assertEquals(new Verdict<>(true, Optional.empty()), large.verifyAndUpdate(STORED, password));
    }

    @Test
    void aHashWithOtherSettingsIsRenewed() {
        PasswordHasher now = new PasswordHasher(settings(64, 2, 2, 32, 16));
        for (Settings old : List.of(settings(128, 2, 2, 32, 16), settings(64, 1, 2, 32, 16),
                settings(64, 2, 1, 32, 16), settings(64, 2, 2, 31, 16), settings(64, 2, 2, 32, 15),
                new Settings(Variant.ARGON2I, Version.VERSION_13, 64, 2, 2, 32, 16),
                new Settings(Variant.ARGON2ID, Version.VERSION_10, 64, 2, 2, 32, 16))) {
            String stored = new PasswordHasher(old).hash(password);
            assertTrue(now.needsRehash(stored), old.toString());
            Verdict<String> verdict = now.verifyAndUpdate(stored, "password".toCharArray());
            String update = verdict.update().orElseThrow();
            assertTrue(verdict.matches() && now.verify(update, password) && !now.needsRehash(update));
            assertEquals(new Verdict<>(true, Optional.empty()), now.verifyAndUpdate(update, password));
            assertEquals(new Verdict<>(false, Optional.empty()), now.verifyAndUpdate(stored, new byte[0]));
        }
    }

    /** Nothing stops it, and the thread stays interrupted. */
    @Test
    void aDirectCallOfAnInterruptedThreadRunsToItsEnd() {
        Thread.currentThread().interrupt();
        assertTrue(hasher.verify(hasher.hash(password), password));
        assertTrue(Thread.interrupted());
    }

    /** The salt's length is not that of the settings. */
    @Test
    void aRawHashHasTheLengthOfTheSettings() {
        byte[] salt = bytes("somesalt");
        String expected = STORED.substring(STORED.lastIndexOf('$') + 1);
        PasswordHasher other = new PasswordHasher(settings(256, 2, 1, 32, 16));
        assertEquals(expected, Base64.getEncoder().withoutPadding().encodeToString(other.hashRaw(password, salt)));
        assertArrayEquals(other.hashRaw(password, salt), other.hashRaw("password".toCharArray(), salt));
        assertEquals(1000, new PasswordHasher(settings(64, 1, 1, 1000, 16)).hashRaw(password, salt).length);
        assertFails(SALT_TOO_SHORT, () -> other.hashRaw(password, new byte[7]));
        assertFails(NOT_UNICODE, () -> other.hashRaw(new char[] {'\ud800'}, salt));
    }

    @Test
    void aSubclassCopiesAHasher() {
        byte[] key = bytes("key");
        Limits low = new Limits(255, 9, 9, 9999);
        PasswordHasher other = hasher.withPepper(key).withAssociatedData(key).withLimits(low);
        PasswordHasher encoder = new PasswordHasher(other) {};
        key[0]++; // the hashers have a copy of it
        String stored = encoder.encode("password");
        assertTrue(hasher.withPepper(bytes("key")).withAssociatedData(bytes("key")).verify(stored, password));
        assertTrue(encoder.matches("password", other.encode("password")));
        assertFalse(encoder.needsRehash(other.encode("password")));
        assertFails(TOO_COSTLY, () -> encoder.matches("password", STORED));
    }
}
