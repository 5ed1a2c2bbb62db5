// How calls are stopped, and how they wait for their turn: for threads of a pool, or in a caller's line.
import { Rejected, STOPPED } from './codes.js';
import { AbortError } from './errors.js';

/**
 * The error of a call whose signal was aborted: the signal's reason. The platform's default reason has a `code` that is
 * the number of another error here, so it is replaced by an error like that of Node's own calls.
 */
function reasonOf({ reason }) {
    const isPlatforms = reason instanceof DOMException && reason.name === 'AbortError';
    return isPlatforms ? new AbortError(reason.message, { cause: reason }) : reason;
}

/** What to stop when a signal is aborted. Node warns of a leak at 11 listeners, so all calls of a signal share one. */
const stopsOf = new WeakMap();

/** Stops the calls of a signal. (Anybody can dispatch such an event to a signal that is not aborted.) */
function stopAll({ currentTarget: signal }) {
    if (signal.aborted) {
        stopsOf.get(signal).forEach((stop) => stop());
    }
}

/** Calls `stop` when a signal is aborted. Returns a function that forgets it, and with the last one the listener. */
function listenTo(signal, stop) {
    const stops = stopsOf.get(signal) ?? new Set();
    stopsOf.set(signal, stops.add(stop));
    signal.addEventListener('abort', stopAll);
    return () => {
        stops.delete(stop);
        if (stops.size === 0) {
            signal.removeEventListener('abort', stopAll);
        }
    };
}

/** The progress of a call: its callback, and the signal that stops it. */
export class Progress {
    #onProgress;
    #thrown;

    constructor(onProgress, signal) {
        this.#onProgress = onProgress;
        this.signal = signal;
    }

    /** Whether there is a callback. */
    get isReported() {
        return this.#onProgress !== undefined;
    }

    /** Whether anything can stop the call. */
    get canStop() {
        return this.isReported || this.signal !== undefined;
    }

    get isStopped() {
        return this.#thrown !== undefined || this.signal?.aborted === true;
    }

    /** Reports that `done` of all slices are filled, and returns whether the call has to stop. */
    report(done, all) {
        if (!this.isStopped) {
            try {
                this.#onProgress?.(done, all);
            } catch (error) {
                this.#thrown = { error };
            }
        }
        return this.isStopped;
    }

    /** Calls `stop` when the signal is aborted. Returns a function that undoes this. */
    whenAborted(stop) {
        return this.signal === undefined ? () => {} : listenTo(this.signal, stop);
    }

    /** Throws what the callback threw, or the signal's reason. */
    throwIfStopped() {
        if (this.#thrown) {
            throw this.#thrown.error;
        }
        if (this.signal?.aborted) {
            throw reasonOf(this.signal);
        }
    }
}

/** A number of places. A call takes free ones at once, or waits its turn until others leave theirs. */
export class Places {
    #taken = 0;
    /** What starts the calls that wait, in their order: an array would be moved for each call that leaves it. */
    #waiting = new Set();
    /** An iterator of these, which is kept, since another one would pass all calls that have left. */
    #order = this.#waiting.values();
    #all;

    /** `all` returns how many places there are, which may change. */
    constructor(all) {
        this.#all = all;
    }

    /** How many calls wait. */
    get waiting() {
        return this.#waiting.size;
    }

    /** How many places are taken. */
    get taken() {
        return this.#taken;
    }

    /** Takes the free places, up to a maximum. Returns how many it took. */
    take(most) {
        const count = Math.max(0, Math.min(most, this.#all() - this.#taken));
        this.#taken += count;
        return count;
    }

    /** Waits for its turn, and takes a place. An aborted call leaves the queue. */
    wait(progress) {
        let forget;
        const turn = new Promise((resolve, reject) => {
            this.#waiting.add(resolve);
            forget = progress.whenAborted(() => {
                this.#waiting.delete(resolve);
                reject(new Rejected(STOPPED));
            });
        });
        return turn.finally(forget);
    }

    /** Takes a place, at once or in its turn, and other free places, up to a maximum. Returns how many it took. */
    async takeInTurn(most, progress) {
        return this.take(most) || await this.wait(progress) + this.take(most - 1);
    }

    leave(count) {
        this.#taken -= count;
        while (this.waiting > 0 && this.take(1) > 0) {
            this.#takeFirst()(1);
        }
    }

    /** Takes the first of the calls that wait out of the queue. (An iterator that has come to the end stays there.) */
    #takeFirst() {
        let next = this.#order.next();
        if (next.done) {
            this.#order = this.#waiting.values();
            next = this.#order.next();
        }
        this.#waiting.delete(next.value);
        return next.value;
    }
}
