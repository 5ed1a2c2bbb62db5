package proved.argon2;

import static org.junit.jupiter.api.Assertions.*;
import static proved.argon2.Argon2Exception.Reason.*;
import static proved.argon2.HashQueueTest.isBusy;
import static proved.argon2.PasswordHasherTest.*;

import java.io.IOException;
import java.nio.file.*;
import java.time.Duration;
import java.util.*;
import java.util.concurrent.*;
import java.util.concurrent.atomic.AtomicInteger;
import org.junit.jupiter.api.*;

/** While a file {@code threads} exists, threads are denied. */
@Tag("denied")
@Timeout(3600)
class DeniedTest {
    private static final Path FOLDER = Path.of(System.getenv().getOrDefault("DENIED", "."));
    private final PasswordHasher hasher = new PasswordHasher(SMALL.withMemory(32 * 1024).withLanes(4));
    private final HashQueue queue = new HashQueue(2, 4);
    private final String stored = hasher.hash(new byte[0]);

    private static Path deny() throws IOException {
        return Files.createFile(FOLDER.resolve("threads"));
    }

    @AfterEach
    void close() throws IOException {
        Files.deleteIfExists(FOLDER.resolve("threads"));
        queue.close();
    }

    @Test
    void withoutThreadsCallsWaitForThoseThatThereAre() throws IOException {
        Path denied = deny();
        for (int call = 0; call < 7; call++) {
            assertTrue(isBusy(queue.submit(() -> "")));
        }
        assertTrue(hasher.verify(stored, new byte[0])); // one thread fills all lanes
        Files.delete(denied);
        assertTrue(queue.run(() -> hasher.verify(stored, new byte[0])));
        deny();
        CompletableFuture<String> first = queue.submit(() -> ENDLESS.hash(new byte[0]));
        CompletableFuture<Boolean> second = queue.submit(() -> hasher.verify(stored, new byte[0]));
        assertFalse(second.isDone());
        first.cancel(true);
        assertTrue(second.join());
    }

    /**
     * Threads are denied now and then, and end at once when they are idle. Each call is made once, or rejected; nobody
     * waits for ever.
     */
    @Test
    void threadsThatAreDeniedNowAndThenLoseNoCallAndRepeatNone() throws IOException, InterruptedException {
        AtomicInteger made = new AtomicInteger();
        List<CompletableFuture<Integer>> results = new ArrayList<>();
        HashQueue fresh = new HashQueue(2, 1000, Duration.ZERO);
        for (int round = 0; round < 200; round++) {
            Path denied = deny();
            for (int call = 0; call < 3; call++) {
                results.add(fresh.submit(made::incrementAndGet));
            }
            Files.delete(denied);
            results.add(fresh.submit(made::incrementAndGet));
        }
        for (CompletableFuture<Integer> result : results) {
            assertDoesNotThrow(() -> result.handle((value, error) -> value).get(20, TimeUnit.SECONDS));
        }
        long rejected = results.stream().filter(HashQueueTest::isBusy).count();
        assertEquals(results.size() - rejected, made.get());
        assertTrue(rejected > 0 && made.get() >= 200, rejected + " " + made);
        fresh.close();
    }

    /** No call may be accepted because of another caller's thread, which is denied as well. */
    @Test
    void withoutThreadsNoCallOfSeveralCallersIsAccepted() throws IOException, InterruptedException, ExecutionException {
        int count = 6;
        ThreadPoolExecutor callers = (ThreadPoolExecutor) Executors.newFixedThreadPool(count);
        callers.prestartAllCoreThreads();
        CyclicBarrier start = new CyclicBarrier(count);
        for (int round = 0; round < 10; round++) {
            HashQueue fresh = new HashQueue(4, 64);
            Callable<Argon2Exception> call = () -> {
                start.await();
                return assertThrows(Argon2Exception.class, () -> fresh.run(() -> ""));
            };
            Path denied = deny();
            for (Future<Argon2Exception> error : callers.invokeAll(Collections.nCopies(count, call))) {
                assertEquals(BUSY, error.get().reason());
            }
            Files.delete(denied);
            assertEquals("", fresh.run(() -> ""));
            fresh.close();
        }
        callers.shutdown();
    }
}
