package proved.argon2;

import static org.junit.jupiter.api.Assertions.*;
import static proved.argon2.Argon2Exception.Reason.*;

import java.time.Duration;
import org.junit.jupiter.api.Test;

class TuningTest {
    private static final Settings MOST = new Settings(Variant.ARGON2I, Version.VERSION_10, 8192, 1, 2, 24, 12);

    @Test
    void hashesAreMeasuredOnThisMachine() {
        for (Duration within : new Duration[] {Duration.ofSeconds(60), Duration.ofSeconds(Long.MAX_VALUE)}) {
            Tuning found = Tuning.tune(within, MOST).orElseThrow();
            assertEquals(MOST.withPasses(Limits.DEFAULT.passes()), found.settings());
            assertTrue(found.milliseconds() > 0 && found.milliseconds() < 60_000);
        }
        assertTrue(Tuning.tune(Duration.ZERO, MOST).isEmpty());
        assertTrue(Tuning.tune(Duration.ofSeconds(Long.MIN_VALUE), MOST).isEmpty());
        assertTrue(Tuning.tune(Duration.ofSeconds(60), MOST.withMemory(7167)).isEmpty());
    }

    @Test
    void aSearchInAQueueIsStopped() throws InterruptedException {
        try (HashQueue queue = new HashQueue(1, 0)) {
            Thread caller = new Thread(() -> PasswordHasherTest.assertFails(STOPPED,
                () -> queue.run(() -> Tuning.tune(Duration.ofHours(1), Settings.rfc9106())))); // takes minutes
            caller.start();
            HashQueueTest.await(() -> HashQueueTest.threads() == 1);
            caller.interrupt();
            HashQueueTest.await(() -> queue.submit(() -> "").isDone() && !HashQueueTest.isBusy(queue.submit(() -> "")));
            caller.join();
        }
    }
}
