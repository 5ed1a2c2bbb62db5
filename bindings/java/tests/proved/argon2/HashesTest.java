package proved.argon2;

import static org.junit.jupiter.api.Assertions.*;

import java.io.IOException;
import java.nio.charset.StandardCharsets;
import java.nio.file.*;
import java.util.*;
import java.util.function.Supplier;
import org.bouncycastle.crypto.generators.Argon2BytesGenerator;
import org.bouncycastle.crypto.params.Argon2Parameters;
import org.junit.jupiter.api.Test;
import org.junit.jupiter.params.ParameterizedTest;
import org.junit.jupiter.params.provider.CsvSource;

/** The hashes of other implementations. */
class HashesTest {
    static byte[] bytes(String text) {
        return text.getBytes(StandardCharsets.UTF_8);
    }

    private static String base64(byte[] bytes) {
        return Base64.getEncoder().withoutPadding().encodeToString(bytes);
    }

    private static int number(String digits) {
        return (int) Math.min(Integer.MAX_VALUE, Long.parseLong(digits));
    }

    private static byte[] hex(String digits) {
        return digits.equals("-") ? new byte[0] : HexFormat.of().parseHex(digits);
    }

    /** {@return the result of a call, or its error as the tables have it} */
    private static String outcome(Supplier<Object> call) {
        try {
            return String.valueOf(call.get());
        } catch (Argon2Exception error) {
            return "ERR " + error.getMessage();
        }
    }

    /** A line: variant, version, passes, memory, lanes, length, four inputs, and the tag or an error. */
    private static void compare(String line) {
        String[] words = line.split(" ", 11);
        Variant variant = Variant.valueOf(words[0].toUpperCase(Locale.ROOT));
        Version version = words[1].equals("16") ? Version.VERSION_10 : Version.VERSION_13;
        byte[] password = hex(words[6]);
        byte[] salt = hex(words[7]);
        Supplier<Settings> settings = () -> new Settings(variant, version, number(words[3]), number(words[2]),
            number(words[4]), number(words[5]), salt.length);
        if (words[10].startsWith("ERR")) {
            assertEquals(words[10], outcome(settings::get), line);
            return;
        }
        PasswordHasher bare = new PasswordHasher(settings.get()).withAssociatedData(hex(words[9]));
        PasswordHasher hasher = words[8].equals("-") ? bare : bare.withPepper(hex(words[8]));
        String expected = "$%s$v=%s$m=%s,t=%s,p=%s$%s$%s".formatted(
            words[0], words[1], words[3], words[2], words[4], base64(salt), base64(hex(words[10])));
        assertEquals(expected, hasher.hash(password, salt), line);
        assertArrayEquals(hex(words[10]), hasher.hashRaw(password, salt), line);
        PasswordHasher unlimited = hasher.withLimits(Limits.NONE);
        assertTrue(unlimited.verify(expected, password), line);
        assertFalse(unlimited.verify(expected, bytes("another")), line);
        assertFalse(unlimited.withPepper(bytes("another")).verify(expected, password), line);
        assertFalse(unlimited.withAssociatedData(bytes("another")).verify(expected, password), line);
        assertFalse(hasher.needsRehash(expected), line);
    }

    @Test
    void hashesEqualThoseOfOtherImplementations() throws IOException {
        for (String table : List.of(System.getProperty("vectors") + "/raw.txt", System.getProperty("random"))) {
            List<String> lines = Files.readAllLines(Path.of(table));
            assertEquals(table.endsWith("raw.txt") ? 240 : 800, lines.size());
            lines.forEach(HashesTest::compare);
        }
    }

    @Test
    void encodedHashesOfOtherImplementationsAreVerified() throws IOException {
        List<String> lines = Files.readAllLines(Path.of(System.getProperty("vectors"), "texts.txt"));
        assertEquals(147, lines.size());
        PasswordHasher hasher = new PasswordHasher().withLimits(Limits.NONE);
        for (String line : lines) {
            String[] parts = line.split("\t");
            assertEquals(parts[1], outcome(() -> hasher.verify(parts[0], bytes("password"))), line);
        }
    }

    /** Spring makes hashes with Bouncy Castle. Both of its sets of default settings are here. */
    @ParameterizedTest
    @CsvSource({"16384, 2, 1", "4096, 3, 1", "256, 1, 4"})
    void hashesOfSpringAreVerified(int memory, int passes, int lanes) {
        byte[] salt = bytes("somesaltsomesalt");
        byte[] tag = new byte[32];
        Argon2BytesGenerator generator = new Argon2BytesGenerator();
        generator.init(new Argon2Parameters.Builder(Argon2Parameters.ARGON2_id).withSalt(salt).withMemoryAsKB(memory)
            .withIterations(passes).withParallelism(lanes).build());
        generator.generateBytes(bytes("pässword€😀"), tag);
        String stored = "$argon2id$v=19$m=%d,t=%d,p=%d$%s$%s"
            .formatted(memory, passes, lanes, base64(salt), base64(tag));
        PasswordHasher spring = new PasswordHasher();
        assertTrue(spring.matches("pässword€😀", stored));
        assertTrue(spring.verify(stored, "pässword€😀".toCharArray()));
        assertFalse(spring.matches("password", stored));
        assertTrue(spring.upgradeEncoding(stored));
        assertTrue(spring.matches("a new one", spring.encode("a new one")));
        assertFalse(spring.matches("password", null));
        assertFalse(spring.matches("password", ""));
        assertThrows(Argon2Exception.class, () -> spring.matches("password", "{argon2}" + stored));
    }
}
