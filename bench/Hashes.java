package proved.argon2;

import java.io.BufferedReader;
import java.io.IOException;
import java.io.InputStreamReader;
import java.nio.charset.StandardCharsets;
import java.util.Base64;
import java.util.HexFormat;
import java.util.function.Supplier;
import org.bouncycastle.crypto.generators.Argon2BytesGenerator;
import org.bouncycastle.crypto.params.Argon2Parameters;

/**
 * Hashes by this library or by Bouncy Castle for each input line, and prints the tag and the milliseconds, for
 * times.py: {@code Hashes ours|theirs KIB PASSES LANES THREADS}.
 */
final class Hashes {
    private static final byte[] PASSWORD = "password".getBytes(StandardCharsets.US_ASCII);
    private static final byte[] SALT = "somesaltsomesalt".getBytes(StandardCharsets.US_ASCII);
    /** Untimed hashes, after which the code is compiled, and their memory in KiB. */
    private static final int WARM = 1000;
    private static final int LITTLE = 256;

    /** Makes the hasher once, as a service does. */
    private static Supplier<byte[]> ours(int memory, int passes, int lanes) {
        PasswordHasher hasher =
            new PasswordHasher(Settings.owasp2().withMemory(memory).withPasses(passes).withLanes(lanes));
        return () -> {
            String stored = hasher.hash(PASSWORD, SALT);
            return Base64.getDecoder().decode(stored.substring(stored.lastIndexOf('$') + 1));
        };
    }

    /** Makes a generator for each hash, as Spring Security does. */
    private static Supplier<byte[]> theirs(int memory, int passes, int lanes) {
        return () -> {
            byte[] tag = new byte[32];
            Argon2BytesGenerator generator = new Argon2BytesGenerator();
            generator.init(new Argon2Parameters.Builder(Argon2Parameters.ARGON2_id).withSalt(SALT)
                .withMemoryAsKB(memory).withIterations(passes).withParallelism(lanes).build());
            generator.generateBytes(PASSWORD, tag);
            return tag;
        };
    }

    private static Supplier<byte[]> hashes(String whose, int memory, int passes, int lanes) {
        return whose.equals("ours") ? ours(memory, passes, lanes) : theirs(memory, passes, lanes);
    }

    public static void main(String[] words) throws IOException {
        Supplier<byte[]> little = hashes(words[0], LITTLE, 1, 1);
        for (int round = 0; round < WARM; round++) {
            little.get();
        }
        Supplier<byte[]> hash =
            hashes(words[0], Integer.parseInt(words[1]), Integer.parseInt(words[2]), Integer.parseInt(words[3]));
        BufferedReader lines = new BufferedReader(new InputStreamReader(System.in, StandardCharsets.US_ASCII));
        while (lines.readLine() != null) {
            long began = System.nanoTime();
            byte[] tag = hash.get();
            System.out.println(HexFormat.of().formatHex(tag) + " " + (System.nanoTime() - began) / 1e6);
        }
    }
}
