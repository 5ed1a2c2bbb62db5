package proved.argon2;

import static org.junit.jupiter.api.Assertions.*;
import static proved.argon2.Argon2Exception.Reason.*;
import static proved.argon2.PasswordHasherTest.*;

import java.io.*;
import java.nio.file.*;
import java.security.SecureRandom;
import java.util.*;
import java.util.function.Consumer;
import java.util.stream.Stream;
import org.junit.jupiter.api.Test;

class MemoryTest {
    private static final int CHUNK = 1 << 20;
    private static final int LENGTH = 96;
    private static final int MIDDLE = 24; // (freeing memory overwrites its beginning)
    private final PasswordHasher hasher = new PasswordHasher(SMALL);
    private final SecureRandom random = new SecureRandom();

    /** The KiB of a row of /proc/self/status. */
    static long kib(String row) {
        try (Stream<String> lines = Files.lines(Path.of("/proc/self/status"))) {
            return lines.filter(line -> line.startsWith(row + ":"))
                .mapToLong(line -> Long.parseLong(line.replaceAll("\\D", ""))).findAny().orElseThrow();
        } catch (IOException error) {
            throw new UncheckedIOException(error);
        }
    }

    /** {@return whether writable memory contains some bytes} Their complement is passed, so that this adds no copy. */
    private static boolean has(byte[] complement) throws IOException {
        byte[] chunk = new byte[CHUNK + complement.length];
        try (RandomAccessFile memory = new RandomAccessFile("/proc/self/mem", "r")) {
            for (String line : Files.readAllLines(Path.of("/proc/self/maps"))) {
                String[] words = line.split("[- ]");
                if (!words[2].startsWith("rw") || line.contains("[v")) {
                    continue;
                }
                long end = Long.parseUnsignedLong(words[1], 16);
                for (long at = Long.parseUnsignedLong(words[0], 16); at < end; at += CHUNK) {
                    memory.seek(at);
                    int length = memory.read(chunk, 0, (int) Math.min(chunk.length, end - at));
                    if (contains(chunk, length, complement)) {
                        return true;
                    }
                }
            }
        }
        return false;
    }

    private static boolean contains(byte[] chunk, int length, byte[] complement) {
        for (int at = 0; at + complement.length <= length; at++) {
            int same = 0;
            while (same < complement.length && chunk[at + same] == (byte) ~complement[same]) {
                same++;
            }
            if (same == complement.length) {
                return true;
            }
        }
        return false;
    }

    /** {@return whether memory has the middle of a password, as bytes or as characters, after a call} */
    private boolean keeps(Consumer<char[]> call, boolean isCleared) throws IOException {
        System.gc(); // so that the collector does not run meanwhile, and leaves no copies itself
        char[] password = new char[LENGTH];
        byte[] bytes = new byte[MIDDLE];
        byte[] chars = new byte[2 * MIDDLE];
        for (int i = 0; i < LENGTH; i++) {
            password[i] = (char) (33 + random.nextInt(90));
        }
        for (int i = 0; i < MIDDLE; i++) {
            bytes[i] = (byte) ~password[MIDDLE + i];
            chars[2 * i] = bytes[i];
            chars[2 * i + 1] = (byte) 255;
        }
        call.accept(password);
        if (isCleared) {
            Arrays.fill(password, '\0');
        }
        return has(bytes) || has(chars);
    }

    @Test
    void copiesOfPasswordsAreCleared() throws IOException {
        String stored = hasher.hash(new char[0]);
        assertTrue(keeps(password -> {}, false), "nothing is found");
        for (Consumer<char[]> call : List.<Consumer<char[]>>of(
                hasher::hash, password -> hasher.verify(stored, password), hasher::verifyUnknown,
                password -> assertFails(DECODING_FAIL, () -> hasher.verify("x", password)),
                password -> {
                    password[LENGTH - 1] = '\ud800';
                    assertFails(NOT_UNICODE, () -> hasher.hash(password));
                })) {
            assertFalse(keeps(call, true));
        }
    }

    @Test
    void memoryDoesNotGrow() {
        byte[] password = new byte[16 * 1024];
        String stored = hasher.hash(password);
        long before = 0;
        try (HashQueue queue = new HashQueue(2, 0)) {
            for (int call = 0; call < 12_000; call++) {
                queue.run(() -> hasher.verifyAndUpdate(stored, password));
                assertFails(DECODING_FAIL, () -> hasher.verify("x", password));
                if (call == 2000) {
                    System.gc();
                    before = kib("VmRSS");
                }
            }
        }
        System.gc();
        long grown = kib("VmRSS") - before;
        assertTrue(grown < 40 * 1024, grown + " KiB");
    }
}
