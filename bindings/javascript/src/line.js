// A caller's line: how many calls compute at the same time, and how many wait.
import { BusyError } from './errors.js';
import { hashesAtOnce } from './native.js';
import { DEFAULTS, numberOf, ownOf, settingsOf, signalOf } from './options.js';
import { memoryOfSystem, processors } from './platform.js';
import { Places, Progress } from './turns.js';

const NAMES_OF_LINE = new Set([...Object.keys(DEFAULTS), 'concurrency', 'waiting']);
const WAITING_FOR_EACH = 16;

/** How many hashes can run within a quarter of the memory, with a processor for each lane; at least one. */
function fittingIn(own) {
    const byProcessors = Math.floor(processors() / Math.max(1, own.parallelism));
    return Math.max(1, Math.min(byProcessors, hashesAtOnce(settingsOf(own), memoryOfSystem() / 4)));
}

/** Limits how many calls compute at the same time, and how many more may wait. */
export class Line {
    #places = new Places(() => this.concurrency);
    #refused = 0;

    constructor(options = {}) {
        const own = { __proto__: null, ...DEFAULTS, ...ownOf(options, NAMES_OF_LINE, 'options') };
        Object.entries(own).forEach(([name, value]) => numberOf(name, value));
        this.concurrency = own.concurrency ?? fittingIn(own);
        this.waiting = own.waiting ?? WAITING_FOR_EACH * this.concurrency;
        if (this.concurrency === 0) {
            throw new RangeError("'concurrency' has to be at least 1");
        }
        Object.freeze(this);
    }

    /** How many calls compute now. */
    get running() {
        return this.#places.taken;
    }

    /** How many calls wait now. */
    get queued() {
        return this.#places.waiting;
    }

    /** How many calls were rejected with `BusyError` so far. */
    get refused() {
        return this.#refused;
    }

    /** Makes a call when a place is free, and returns its result. The place is free again when the call has ended. */
    async run(call, options = {}) {
        const { signal } = { __proto__: null, ...options };
        const progress = new Progress(undefined, signalOf(signal));
        progress.throwIfStopped();
        if (this.#places.take(1) === 0) {
            if (this.#places.waiting >= this.waiting) {
                this.#refused += 1;
                throw new BusyError('Too many calls compute or wait');
            }
            await this.#places.wait(progress).catch(() => progress.throwIfStopped());
        }
        try {
            return await call();
        } finally {
            this.#places.leave(1);
        }
    }
}
