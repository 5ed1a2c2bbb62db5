package proved.argon2;

import static org.junit.jupiter.api.Assertions.*;
import static proved.argon2.Argon2Exception.Reason.*;
import static proved.argon2.PasswordHasherTest.*;

import java.util.Optional;
import org.junit.jupiter.api.Test;
import proved.argon2.Peppers.Pepper;
import proved.argon2.Peppers.Stored;

class PeppersTest {
    private static final char[] PASSWORD = "password".toCharArray();
    private static final char[] WRONG = "Password".toCharArray();
    private final PasswordHasher hasher = new PasswordHasher(SMALL);
    private final Pepper older = new Pepper("2025", HashesTest.bytes("old key"));
    private final Pepper newer = new Pepper("2026", HashesTest.bytes("new key"));
    private final Peppers peppers = new Peppers(hasher, newer, older);

    @Test
    void aHashHasTheNewestPepper() {
        Stored stored = peppers.hash(PASSWORD);
        assertEquals("2026", stored.keyId());
        assertTrue(hasher.withPepper(newer.key()).verify(stored.encoded(), PASSWORD));
        assertFalse(hasher.verify(stored.encoded(), PASSWORD));
        assertEquals(
            new Verdict<>(true, Optional.empty()), peppers.verifyAndUpdate("2026", stored.encoded(), PASSWORD));
        assertFalse(peppers.verifyUnknown(PASSWORD));
    }

    @Test
    void anOlderPepperIsReplaced() {
        Stored stored = new Peppers(hasher, older).hash(PASSWORD);
        Verdict<Stored> verdict = peppers.verifyAndUpdate(stored.keyId(), stored.encoded(), PASSWORD);
        assertTrue(verdict.matches() && verdict.update().orElseThrow().keyId().equals("2026"));
        assertTrue(peppers.verifyAndUpdate("2026", verdict.update().get().encoded(), PASSWORD).matches());
        assertEquals(new Verdict<>(false, Optional.empty()), peppers.verifyAndUpdate("2025", stored.encoded(), WRONG));
        assertFalse(peppers.verifyAndUpdate("2026", stored.encoded(), PASSWORD).matches());
    }

    @Test
    void anIdWithoutAKeyIsAnError() {
        String bare = hasher.hash(PASSWORD);
        for (String id : new String[] {"2024", "", null}) {
            assertFails(UNKNOWN_PEPPER, () -> peppers.verifyAndUpdate(id, bare, PASSWORD));
        }
        Verdict<Stored> verdict = peppers.acceptUnpeppered().verifyAndUpdate(null, bare, PASSWORD);
        assertTrue(verdict.matches() && verdict.update().orElseThrow().keyId().equals("2026"));
        assertFalse(peppers.acceptUnpeppered().verifyAndUpdate(null, bare, WRONG).matches());
        assertFails(UNKNOWN_PEPPER, () -> peppers.acceptUnpeppered().verifyAndUpdate("2024", bare, PASSWORD));
    }

    @Test
    void aHashWithoutAPepperHasTheOtherOptionsOfTheHasher() {
        PasswordHasher ofUser = hasher.withAssociatedData(HashesTest.bytes("user"));
        String bare = ofUser.hash(PASSWORD);
        assertTrue(new Peppers(ofUser, newer).acceptUnpeppered().verifyAndUpdate(null, bare, PASSWORD).matches());
        Peppers limited = new Peppers(ofUser.withLimits(new Limits(63, 2, 1, 126)), newer).acceptUnpeppered();
        assertFails(TOO_COSTLY, () -> limited.verifyAndUpdate(null, bare, PASSWORD));
    }

    @Test
    void wrongPeppersAreRejected() {
        for (Pepper[] wrong : new Pepper[][] {{}, {newer, newer}, {newer, new Pepper("a", new byte[0])},
            {new Pepper(null, newer.key())}}) {
            assertFails(INVALID_PEPPERS, () -> new Peppers(hasher, wrong));
        }
        assertFails(INVALID_PEPPERS, () -> hasher.withPepper(new byte[0]));
        assertFalse(newer.toString().contains("key]"));
    }
}
