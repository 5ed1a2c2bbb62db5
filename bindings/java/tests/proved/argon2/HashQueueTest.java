package proved.argon2;

import static org.junit.jupiter.api.Assertions.*;
import static proved.argon2.Argon2Exception.Reason.*;
import static proved.argon2.PasswordHasherTest.*;

import java.io.IOException;
import java.lang.ref.WeakReference;
import java.time.Duration;
import java.util.List;
import java.util.concurrent.*;
import java.util.function.*;
import org.junit.jupiter.api.*;
import org.junit.jupiter.params.ParameterizedTest;
import org.junit.jupiter.params.provider.ValueSource;

@Timeout(3600)
class HashQueueTest {
    private static final Supplier<String> ENDLESS_HASH = () -> ENDLESS.hash(new byte[8]);
    private final PasswordHasher hasher = new PasswordHasher(SMALL);
    private final HashQueue queue = new HashQueue(1, 1, Duration.ofMillis(500));
    private final CompletableFuture<Void> isWatched = new CompletableFuture<>();

    static void await(BooleanSupplier condition) throws InterruptedException {
        while (!condition.getAsBoolean()) {
            TimeUnit.MILLISECONDS.sleep(2);
        }
    }

    /** A result must come: a hang is a failure. */
    private static <T> T soon(CompletableFuture<T> future) {
        return future.copy().orTimeout(1, TimeUnit.HOURS).join();
    }

    /** {@return whether a queue had no place for a call} It says so at once. */
    static boolean isBusy(CompletableFuture<?> future) {
        return future.isCompletedExceptionally() && future.handle(
            (none, error) -> error instanceof Argon2Exception failure && failure.reason() == BUSY).join();
    }

    /** Repeats a call while the queue is busy: a call that was stopped ends after its slice, and not at once. */
    private static <T> CompletableFuture<T> onceThereIsPlace(HashQueue queue, Supplier<T> call)
            throws InterruptedException {
        CompletableFuture<T> future = queue.submit(call);
        while (isBusy(future)) {
            TimeUnit.MILLISECONDS.sleep(2);
            future = queue.submit(call);
        }
        return future;
    }

    static long threads() {
        return Thread.getAllStackTraces().keySet().stream().filter(HashQueue.Worker.class::isInstance).count();
    }

    /** Submits a call that waits until the test has attached callbacks and completes {@link #isWatched}. */
    private <T> CompletableFuture<T> submitHeld(Supplier<T> call) {
        return queue.submit(() -> {
            soon(isWatched);
            return call.get();
        });
    }

    /** A call that computes until it is stopped. */
    private CompletableFuture<String> computing() throws InterruptedException {
        CompletableFuture<Boolean> hasBegun = new CompletableFuture<>();
        CompletableFuture<String> future = onceThereIsPlace(queue, () -> {
            hasBegun.complete(true);
            return ENDLESS_HASH.get();
        });
        soon(hasBegun);
        return future;
    }

    /** One call computes, one waits, and there is place for no more. */
    private void assertHasBothPlaces() throws InterruptedException {
        CompletableFuture<String> first = computing();
        CompletableFuture<String> second = queue.submit(() -> hasher.hash(new byte[0]));
        long before = queue.refused();
        assertTrue(isBusy(queue.submit(() -> "")));
        assertEquals(List.of(1, 1, before + 1), List.of(queue.running(), queue.queued(), queue.refused()));
        assertFalse(first.isDone() || second.isDone());
        first.cancel(true);
        assertTrue(hasher.verify(soon(second), new byte[0]));
        assertEquals(List.of(0, 0, before + 1), List.of(queue.running(), queue.queued(), queue.refused()));
    }

    @AfterEach
    @Timeout(3600)
    void allThreadsEnd() throws InterruptedException {
        queue.close();
        await(() -> threads() == 0);
        assertTrue(isBusy(queue.submit(() -> "")));
    }

    @Test
    void whatACallReturnsOrThrowsIsPassedOn() {
        String stored = queue.run(() -> hasher.hash("password".toCharArray()));
        assertTrue(soon(queue.submit(() -> hasher.verifyAndUpdate(stored, "password".toCharArray()))).matches());
        assertThrows(CompletionException.class, queue.submit(() -> hasher.needsRehash(""))::join);
        assertFails(DECODING_FAIL, () -> queue.run(() -> hasher.needsRehash("")));
        IOException cause = new IOException();
        assertEquals(cause, assertThrows(CompletionException.class,
            () -> queue.run(() -> CompletableFuture.failedFuture(cause).join())).getCause());
        for (Throwable thrown : List.of(
                new IllegalStateException(), new CancellationException(), new StackOverflowError())) {
            Throwable caught = assertThrows(thrown.getClass(), () -> queue.run(() -> {
                if (thrown instanceof Error error) {
                    throw error;
                }
                throw (RuntimeException) thrown;
            }));
            assertTrue(caught == thrown || caught.getCause() == thrown); // Java 23 wraps a CancellationException
        }
    }

    @Test
    void theLargestIntIsAValidNumberOfWaitingCalls() {
        for (int concurrency : new int[] {1, 2, 1 << 29, Integer.MAX_VALUE}) {
            try (HashQueue large = new HashQueue(concurrency, Integer.MAX_VALUE)) {
                assertEquals("", large.run(() -> ""));
            }
        }
        assertThrows(IllegalArgumentException.class, () -> new HashQueue(0, 1));
        assertThrows(IllegalArgumentException.class, () -> new HashQueue(1, -1));
    }

    /** Its place is also free in its own callbacks, which run before the queue's. */
    @Test
    void aCancelledCallThatWaitsGivesBackItsPlace() throws InterruptedException {
        CompletableFuture<String> first = computing();
        for (int round = 0; round < 3; round++) {
            assertTrue(queue.submit(ENDLESS_HASH).cancel(false));
        }
        assertTrue(queue.submit(() -> "").completeExceptionally(new TimeoutException()));
        CompletableFuture<String> second = queue.submit(ENDLESS_HASH);
        CompletableFuture<String> next = second.handle((value, error) -> {
            CompletableFuture<String> third = queue.submit(() -> "third");
            assertTrue(isBusy(queue.submit(() -> "")));
            return third;
        }).thenCompose(Function.identity());
        second.cancel(true);
        first.cancel(true);
        assertEquals("third", soon(next));
        assertHasBothPlaces();
    }

    /** The queues have one place each: a call waits in neither of them for itself, also in a callback. */
    @Test
    void aCallWithinACallIsMadeInItsThread() throws InterruptedException {
        try (HashQueue other = new HashQueue(1, 0)) {
            Supplier<Thread> circle = () -> other.run(() -> queue.run(() -> other.run(Thread::currentThread)));
            Thread own = soon(queue.submit(Thread::currentThread));
            assertEquals(own, soon(queue.submit(circle)));
            CompletableFuture<String> first = submitHeld(() -> "first");
            CompletableFuture<Thread> next = first.thenApply(value -> circle.get());
            isWatched.complete(null);
            assertEquals(own, soon(next));
            CompletableFuture<Boolean> hasBegun = new CompletableFuture<>();
            CompletableFuture<String> stopped = queue.submit(() -> other.run(() -> {
                hasBegun.complete(true);
                return ENDLESS_HASH.get();
            }));
            soon(hasBegun);
            stopped.cancel(true);
        }
        assertHasBothPlaces();
    }

    /** Callbacks run after the call's end: the place is free, and no hash is stopped. */
    @Test
    void callbacksInTheThreadAreNoPartOfTheCall() {
        CompletableFuture<String> first = submitHeld(() -> {
            Thread.currentThread().interrupt();
            return hasher.hash(new byte[0]);
        });
        CompletableFuture<List<CompletableFuture<Boolean>>> next = first.thenApply(stored -> {
            assertTrue(Thread.currentThread() instanceof HashQueue.Worker && !Thread.currentThread().isInterrupted());
            assertTrue(hasher.verify(stored, new byte[0]));
            Thread.currentThread().interrupt();
            Supplier<Boolean> isInterrupted = () -> Thread.currentThread().isInterrupted();
            return List.of(queue.submit(isInterrupted), queue.submit(isInterrupted));
        });
        isWatched.complete(null);
        assertEquals(List.of(false, false), soon(next).stream().map(HashQueueTest::soon).toList());
    }

    /** Neither the thread (idle or busy again) nor the future refers to the password. */
    @Test
    void nothingRefersToAPasswordAfterTheCall() throws InterruptedException {
        try (HashQueue other = new HashQueue(1, 0, Duration.ofMinutes(5))) {
            assertForgets(other, HashQueueTest::soon);
            assertEquals(1, threads());
        }
        CompletableFuture<String> first = computing();
        assertForgets(queue, future -> future.cancel(true));
        assertFalse(first.isDone());
    }

    private static void assertForgets(HashQueue queue, Consumer<CompletableFuture<Integer>> end)
            throws InterruptedException {
        byte[] password = new byte[8];
        WeakReference<byte[]> reference = new WeakReference<>(password);
        CompletableFuture<Integer> future = queue.submit(password::hashCode);
        password = null;
        end.accept(future);
        assertForgotten(reference);
        assertTrue(future.isDone());
    }

    private static void assertForgotten(WeakReference<byte[]> reference) throws InterruptedException {
        for (int round = 0; round < 50 && reference.get() != null; round++) {
            TimeUnit.MILLISECONDS.sleep(2);
            System.gc();
        }
        assertNull(reference.get());
    }

    /** It may be a key. */
    @Test
    void anIdleThreadKeepsNoResult() throws InterruptedException {
        try (HashQueue other = new HashQueue(1, 0, Duration.ofMinutes(5))) {
            assertForgotten(new WeakReference<>(other.run(() -> new byte[8])));
            assertEquals(1, threads());
        }
    }

    @Test
    void aCallThatComputesIsStopped() throws InterruptedException {
        assertTrue(computing().cancel(true));
        assertHasBothPlaces();
        CompletableFuture<String> late = computing().orTimeout(50, TimeUnit.MILLISECONDS);
        assertTrue(assertThrows(CompletionException.class, late::join).getCause() instanceof TimeoutException);
        assertHasBothPlaces();
        assertTrue(computing().complete("done"));
        assertHasBothPlaces();
    }

    /** A call stops while it computes and while it waits. */
    @Test
    void anInterruptedCallerStopsItsCall() throws InterruptedException, ReflectiveOperationException {
        CompletableFuture<String> first = computing();
        assertIsStopped(() -> queue.run(ENDLESS_HASH));
        first.cancel(true);
        assertIsStopped(() -> queue.run(ENDLESS_HASH));
        assertHasBothPlaces();
    }

    /** Interrupts a thread that makes a call. Java 17 has no virtual threads. */
    private static void assertIsStopped(Supplier<String> call)
            throws InterruptedException, ReflectiveOperationException {
        for (boolean isVirtual : new boolean[] {false, Runtime.version().feature() >= 21}) {
            CompletableFuture<Boolean> isInterrupted = new CompletableFuture<>();
            Runnable body = () -> {
                assertFails(STOPPED, call::get);
                isInterrupted.complete(Thread.interrupted());
            };
            Thread thread = new Thread(body);
            if (isVirtual) {
                thread = (Thread) Thread.class.getMethod("startVirtualThread", Runnable.class).invoke(null, body);
            } else {
                thread.start();
            }
            TimeUnit.MILLISECONDS.sleep(100);
            assertFalse(isInterrupted.isDone());
            thread.interrupt();
            assertTrue(soon(isInterrupted));
        }
    }

    @Test
    void closingCancelsAllCalls() throws InterruptedException {
        CompletableFuture<String> first = computing();
        CompletableFuture<String> second = queue.submit(ENDLESS_HASH);
        queue.close();
        assertThrows(CancellationException.class, first::join);
        assertThrows(CancellationException.class, second::join);
    }

    @Test
    void closingEndsAllIdleThreads() throws InterruptedException {
        HashQueue other = new HashQueue(3, 0, Duration.ofMinutes(5));
        for (int call = 0; call < 3; call++) {
            soon(other.submit(() -> ""));
        }
        assertEquals(3, threads());
        other.close();
        await(() -> threads() == 0);
    }

    @Test
    void whoWaitsForAClosedQueueIsStopped() {
        CompletableFuture<Boolean> hasBegun = new CompletableFuture<>();
        CompletableFuture<Void> caller = CompletableFuture.runAsync(() -> assertFails(STOPPED, () -> queue.run(() -> {
            hasBegun.complete(true);
            return ENDLESS_HASH.get();
        })));
        soon(hasBegun);
        queue.close();
        soon(caller);
    }

    /** Each call is added at about the time at which the idle thread ends. */
    @Test
    void noCallIsLostWhenAThreadEnds() {
        try (HashQueue hasty = new HashQueue(1, 0, Duration.ZERO)) {
            long last = System.nanoTime() + 5_000_000_000L; // (a busy machine takes long to start a thread)
            for (int call = 0; call < 5000 && System.nanoTime() < last; call++) {
                CompletableFuture<String> future = hasty.submit(() -> "");
                for (long end = System.nanoTime() + 3600_000_000_000L; !future.isDone();) {
                    assertTrue(System.nanoTime() < end, "call " + call + " is lost");
                }
                assertEquals("", future.join());
            }
        }
    }

    /** It does so neither before ten seconds are over, nor in a queue that is closed. */
    @Test
    void anIdleThreadEndsAndFreesItsBuffer() throws InterruptedException, IOException {
        PasswordHasher large = new PasswordHasher(SMALL.withMemory(256 * 1024).withPasses(1));
        HashQueue usual = new HashQueue(1, 1);
        long before = MemoryTest.kib("VmRSS");
        BooleanSupplier isKept = () -> MemoryTest.kib("VmRSS") > before + 180 * 1024; // (the heap may grow by 128 MiB)
        usual.run(() -> large.hash(new byte[0]));
        long begun = System.nanoTime();
        assertTrue(isKept.getAsBoolean());
        await(() -> !isKept.getAsBoolean());
        assertTrue(System.nanoTime() - begun > 9_000_000_000L);
        await(() -> threads() == 0);
        usual.run(() -> large.hash(new byte[0]));
        assertTrue(isKept.getAsBoolean());
        usual.close();
        await(() -> threads() == 0);
        assertFalse(isKept.getAsBoolean());
    }

    /** It keeps as many as the library allows, if it computes more hashes at a time. */
    @Test
    void aQueueOfAnySizeHasBuffers() {
        long buffers = Native.newBuffers(SMALL.numbers(), Integer.MAX_VALUE);
        assertNotEquals(Native.NONE, buffers);
        Native.freeBuffers(buffers);
    }

    @Test
    void aQueueHasTheSizeOfTheMachine() {
        Settings settings = Settings.owasp2();
        int processors = Runtime.getRuntime().availableProcessors();
        assertEquals(17 * processors, callsOf(HashQueue.of(settings, Long.MAX_VALUE)));
        assertEquals(17, callsOf(HashQueue.of(settings, 0)));
        assertEquals(17, callsOf(HashQueue.of(settings, -1)));
        assertEquals(17, callsOf(HashQueue.of(settings, (20480 << 10) * 2L - 1)));
        int fitting = Math.min(2, processors); // a hash of 19 MiB takes up to 20 MiB
        assertEquals(17 * fitting, callsOf(HashQueue.of(settings, (20480 << 10) * 2L)));
        assertEquals(17, callsOf(HashQueue.of(settings.withLanes(processors), Long.MAX_VALUE)));
    }

    private static int callsOf(HashQueue other) {
        try (other) {
            int calls = 0;
            while (!isBusy(other.submit(ENDLESS_HASH))) {
                calls++;
            }
            return calls;
        }
    }
}
