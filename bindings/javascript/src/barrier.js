// Workers that fill the same memory wait for each other after each slice, by words in that memory. Messages would take
// an engine as long as it takes to fill a slice.

/** The value of a word when no further step follows. */
const OVER = -1;

/**
 * Word 0 counts the steps that the leader has begun, and word i the steps that helper i has finished. The codes of the
 * helpers' last steps follow.
 */
export class Barrier {
    #words;
    #helpers;

    constructor(memory, place) {
        this.#words = new Int32Array(memory.buffer, place.at, place.length);
        this.#helpers = (place.length - 1) / 2;
    }

    /** The number of words. */
    static size(helpers) {
        return 1 + 2 * helpers;
    }

    #write(word, value) {
        Atomics.store(this.#words, word, value);
        Atomics.notify(this.#words, word);
    }

    /** Waits until a word is above a number, or is OVER. Returns the word. */
    #waitFor(word, below) {
        for (;;) {
            const value = Atomics.load(this.#words, word);
            if (value === OVER || value > below) {
                return value;
            }
            Atomics.wait(this.#words, word, value);
        }
    }

    #eachHelper(call) {
        return Array.from({ length: this.#helpers }, (_, i) => call(i + 1));
    }

    /** Starts a step of the helpers. */
    begin(step) {
        this.#write(0, step + 1);
    }

    /** Waits until all helpers have finished a step, and returns their codes. */
    codesOf(step) {
        return this.#eachHelper((helper) => {
            this.#waitFor(helper, step);
            return Atomics.load(this.#words, this.#helpers + helper);
        });
    }

    /** Ends the steps, and waits until no helper uses the memory any more. */
    close() {
        this.#write(0, OVER);
        this.#eachHelper((helper) => this.#waitFor(helper, Infinity));
    }

    /** Waits until a step begins, and returns true; or false if no further step follows. */
    hasStep(step) {
        return this.#waitFor(0, step) !== OVER;
    }

    /** Reports the code of a helper's step to the leader. */
    report(helper, step, code) {
        Atomics.store(this.#words, this.#helpers + helper, code);
        this.#write(helper, step + 1);
    }

    /** Tells the leader that a helper has left. */
    leave(helper) {
        this.#write(helper, OVER);
    }
}
