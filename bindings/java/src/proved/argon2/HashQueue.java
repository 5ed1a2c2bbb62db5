package proved.argon2;

import java.time.Duration;
import java.util.Map;
import java.util.Set;
import java.util.concurrent.CancellationException;
import java.util.concurrent.CompletableFuture;
import java.util.concurrent.CompletionException;
import java.util.concurrent.ConcurrentHashMap;
import java.util.concurrent.ExecutionException;
import java.util.concurrent.LinkedBlockingQueue;
import java.util.concurrent.Semaphore;
import java.util.concurrent.TimeUnit;
import java.util.concurrent.atomic.LongAdder;
import java.util.function.BooleanSupplier;
import java.util.function.Supplier;
import proved.argon2.Argon2Exception.Reason;

/**
 * Limits how many hashes are computed at a time, and how many calls wait for that. Make one for the whole service.
 *
 * <p>Calls run in platform threads of the queue. Each hash clears its memory, which is kept for later hashes with the
 * same settings, and freed if none has used it for ten seconds. A thread that has had no call for ten seconds ends. If
 * the system denies a thread, calls wait for the threads that there are.
 *
 * <pre>{@code
 * CompletableFuture<Verdict<String>> login = queue.submit(() -> hasher.verifyAndUpdate(stored, password));
 * }</pre>
 */
public final class HashQueue implements AutoCloseable {
    private static final Duration IDLE = Duration.ofSeconds(10);
    private static final int WAITING_FOR_EACH = 16;

    private final LinkedBlockingQueue<Task<?>> waiting = new LinkedBlockingQueue<>();
    /** The calls that compute or wait. */
    private final Set<Task<?>> tasks = ConcurrentHashMap.newKeySet();
    /** A permit for each call that the queue still has a place for. */
    private final Semaphore places;
    /** A permit for each thread that may still be started. */
    private final Semaphore startable;
    private final LongAdder refused = new LongAdder();
    private final int concurrency;
    private final Duration idle;
    /** The library's kept buffers for hashes with these settings. */
    private final Map<Settings, Long> buffers = new ConcurrentHashMap<>();
    /** Wakes the threads of a closed queue, each of which puts it back for the next one. */
    private final Task<?> end = new Task<>(null);
    private volatile boolean isClosed;

    /**
     * Makes a queue.
     *
     * @param concurrency how many calls compute at a time, at least 1
     * @param waiting how many more calls may wait
     */
    public HashQueue(int concurrency, int waiting) {
        this(concurrency, waiting, IDLE);
    }

    HashQueue(int concurrency, int waiting, Duration idle) {
        if (concurrency < 1 || waiting < 0) {
            throw new IllegalArgumentException("concurrency must be at least 1, and waiting at least 0");
        }
        this.concurrency = concurrency;
        this.idle = idle;
        places = new Semaphore((int) Math.min(Integer.MAX_VALUE, (long) concurrency + waiting));
        startable = new Semaphore(concurrency);
    }

    /**
     * {@return a queue that computes {@code processors / lanes} hashes at a time, or fewer if only those fit into
     * {@code bytes} of memory; at least one} 16 times as many calls wait.
     *
     * @param settings the settings of the hashes
     * @param bytes the memory that all hashes together may use
     */
    public static HashQueue of(Settings settings, long bytes) {
        long processors = Runtime.getRuntime().availableProcessors() / settings.lanes();
        long fitting = Native.hashesAtOnce(settings.numbers(), Math.max(0, bytes));
        int concurrency = (int) Math.max(1, Math.min(processors, fitting));
        return new HashQueue(concurrency, WAITING_FOR_EACH * concurrency);
    }

    /**
     * Makes a call in a thread of the queue. Cancelling the future takes the call out of the queue, or stops its hash
     * after the current slice; so does completing it in another way, as {@code orTimeout} does. Run what depends on the
     * future in other threads, as {@code thenAcceptAsync} does. Leave the password as it is until the future is done.
     * If no more calls may wait, the future has failed with {@link Reason#BUSY}. Do not wait for the future within a
     * call of the queue: if the calls in all places wait in this way, they wait for ever.
     *
     * @param <T> the type of the result
     * @param call the call, which runs in a thread of the queue
     * @return the future of what the call returns or throws
     */
    public <T> CompletableFuture<T> submit(Supplier<T> call) {
        if (isClosed || !hasPlace()) {
            refused.increment();
            return CompletableFuture.failedFuture(new Argon2Exception(Reason.BUSY));
        }
        Task<T> task = new Task<>(call);
        tasks.add(task);
        waiting.add(task);
        task.whenComplete((value, error) -> leave(task));
        if (startable.tryAcquire()) {
            startThread();
        }
        if (isClosed) { // close() may not have seen the call
            task.cancel(true);
        }
        return task;
    }

    /**
     * Does what {@link #submit} does, and waits for what the call returns or throws. Interrupting the caller cancels
     * the call. Throws {@link Reason#STOPPED} if the queue is closed meanwhile. In a thread of any queue, the call is
     * made at once, in that thread: if it waited for a place, two calls could wait for each other.
     *
     * @param <T> the type of the result
     * @param call the call, which runs in a thread of the queue
     * @return what the call returns
     */
    public <T> T run(Supplier<T> call) {
        if (Thread.currentThread() instanceof Worker) {
            return call.get();
        }
        CompletableFuture<T> future = submit(call);
        try {
            return future.get();
        } catch (InterruptedException interruption) {
            future.cancel(true);
            Thread.currentThread().interrupt();
            throw new Argon2Exception(Reason.STOPPED);
        } catch (ExecutionException failure) {
            Throwable cause = failure.getCause();
            if (cause instanceof Error error) {
                throw error;
            }
            // (if the call threw a CompletionException, get() has unwrapped it)
            throw cause instanceof RuntimeException error ? error : new CompletionException(cause);
        } catch (CancellationException cancelled) { // by close(), or by the call itself: nobody else has the future
            throw isClosed ? new Argon2Exception(Reason.STOPPED) : cancelled;
        }
    }

    /** {@return how many calls compute now} */
    public int running() {
        return Math.max(0, tasks.size() - queued());
    }

    /** {@return how many calls wait now} */
    public int queued() {
        return isClosed ? 0 : waiting.size();
    }

    /** {@return how many calls were rejected with {@link Reason#BUSY} so far} */
    public long refused() {
        return refused.sum();
    }

    /** Cancels all calls, and rejects new ones. The threads free their memory and end. */
    @Override
    public void close() {
        isClosed = true;
        tasks.forEach(task -> task.cancel(true));
        waiting.add(end);
        freeBuffers();
    }

    /** What tells whether nobody waits for this thread's call any more, or null: then nothing can stop the call. */
    static BooleanSupplier stop() {
        return Thread.currentThread() instanceof Worker worker && worker.isCalling ? worker.task::isDone : null;
    }

    /** The kept buffers for a hash in this thread, or 0: then it allocates its own memory. */
    static long buffersFor(Settings settings) {
        return Thread.currentThread() instanceof Worker worker ? worker.queue().buffers(settings) : Native.NONE;
    }

    private long buffers(Settings settings) {
        return buffers.computeIfAbsent(settings, own -> Native.newBuffers(own.numbers(), concurrency));
    }

    /** Frees the buffers of a closed queue, once, when it has no thread left that could use them. */
    private void freeBuffers() {
        if (isClosed && startable.tryAcquire(concurrency)) {
            buffers.values().forEach(Native::freeBuffers);
        }
    }

    /**
     * Takes a place if there is one. A cancelled call needs none, even before {@link #leave} was called for it: the
     * user's callbacks run first, and may take long or submit the next call.
     */
    private boolean hasPlace() {
        if (places.tryAcquire()) {
            return true;
        }
        waiting.stream().filter(CompletableFuture::isDone).forEach(this::leave);
        return places.tryAcquire();
    }

    /** Removes a call that is done but still waits. */
    private void leave(Task<?> task) {
        if (waiting.remove(task)) {
            task.end();
        }
    }

    /**
     * Starts a thread. If the system denies it, the calls wait for other threads. If there is none, they are rejected:
     * this sees whoever is the last to be denied one.
     */
    private void startThread() {
        try {
            new Worker().start();
        } catch (OutOfMemoryError denied) {
            startable.release();
            if (startable.availablePermits() == concurrency) {
                waiting.forEach(this::refuse);
            }
        }
    }

    private void refuse(Task<?> task) {
        if (task.completeExceptionally(new Argon2Exception(Reason.BUSY))) {
            refused.increment();
        }
    }

    /** A call, and the future of its result. */
    private final class Task<T> extends CompletableFuture<T> {
        /** Null once it was made or left the queue: it may refer to a password. */
        private Supplier<T> call;

        private Task(Supplier<T> call) {
            this.call = call;
        }

        /** Makes the call. Its place is free before anybody hears of its end. */
        private void run(Worker thread) {
            T value = null;
            Throwable error = null;
            thread.isCalling = true;
            try {
                value = isDone() ? null : call.get();
            } catch (Throwable thrown) {
                error = thrown;
            }
            thread.isCalling = false;
            Thread.interrupted(); // the call may have left the thread interrupted
            end();
            if (error == null) {
                complete(value);
            } else {
                completeExceptionally(error);
            }
        }

        /** Forgets the call, and frees its place. */
        private void end() {
            call = null;
            tasks.remove(this);
            places.release();
        }
    }

    /** A thread of the queue, which ends once it has had no call for a while. */
    final class Worker extends Thread {
        /** The call that is made, or whose callbacks run, or null. */
        private Task<?> task;
        /** Whether it is made. What callbacks compute is never stopped. */
        private boolean isCalling;

        private Worker() {
            super(null, null, "argon2 queue", 0, false);
            setDaemon(true);
        }

        private HashQueue queue() {
            return HashQueue.this;
        }

        /** Makes calls, also those that were added after it had waited for long enough. */
        @Override
        public void run() {
            do {
                makeCalls();
            } while (!isClosed && !waiting.isEmpty() && startable.tryAcquire());
            freeBuffers();
        }

        private void makeCalls() {
            try {
                for (task = next(); task != null; task = next()) {
                    task.run(this);
                    task = null; // an idle thread keeps no result
                }
            } finally {
                buffers.values().forEach(Native::freeIdle);
                startable.release();
            }
        }

        /** Waits for a call, and returns null if the thread has to end. */
        private Task<?> next() {
            buffers.values().forEach(Native::freeIdle);
            Thread.interrupted(); // callbacks may have left the thread interrupted
            try {
                Task<?> task = waiting.poll(idle.toNanos(), TimeUnit.NANOSECONDS);
                if (task != end) {
                    return task;
                }
                waiting.add(end);
            } catch (InterruptedException interrupted) { // by somebody who has found the thread: it is replaced
            }
            return null;
        }
    }
}
