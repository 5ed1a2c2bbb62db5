// Calls that need neither a password nor memory for blocks: they check settings, and decode and encode strings. Their
// errors come before a worker starts. The addon and the module have the same calls, with the same arrays, but the addon
// does not encode: it writes a PHC string itself.
import { NEEDS_REHASH, check } from './codes.js';
import { SETTINGS } from './run.js';

/** Limits as C lays them out, where the work has 64 bits. */
export const limitsAsNumbers = ({ memoryCost, timeCost, parallelism, work }) => Uint32Array.of(
    memoryCost, timeCost, parallelism, 0, Number(BigInt.asUintN(32, BigInt(work))), Number(BigInt(work) >> 32n));

/** The PHC string that the library wrote, with a zero behind it. */
export const phcOf = (bytes) => new TextDecoder().decode(bytes).slice(0, -1);

const lengthsOf = (...inputs) => BigUint64Array.from(inputs, ({ length }) => BigInt(length));

export class Encoder {
    #calls;

    constructor(calls) {
        this.#calls = calls;
    }

    /** Throws if no hash can be computed with these settings and inputs. */
    checkSettings(settings, { password, salt, secret, associatedData }) {
        check(this.#calls.check(Uint32Array.from(settings), lengthsOf(password, salt, secret, associatedData)));
    }

    /** The settings of a PHC string, and the length of its salt. Throws if it is invalid or above the limits. */
    decode(encoded, limits, { password, secret, associatedData }) {
        const stored = new Uint32Array(SETTINGS + 1);
        const lengths = lengthsOf(password, secret, associatedData);
        check(this.#calls.checkEncoded(encoded, limitsAsNumbers(limits), lengths, stored));
        return { settings: [...stored.subarray(0, SETTINGS)], saltLength: stored[SETTINGS] };
    }

    /** The PHC string of a tag. */
    encode(salt, settings, tag) {
        const text = new Uint8Array(this.sizeOf(salt, settings));
        check(this.#calls.encode(salt, Uint32Array.from(settings), tag, text));
        return phcOf(text);
    }

    /** The bytes of the PHC string for a salt, with a zero behind it. */
    sizeOf(salt, settings) {
        return this.#calls.encodedLength(salt, Uint32Array.from(settings)) + 1;
    }

    /** Whether a PHC string has other settings than these. */
    needsRehash(encoded, settings) {
        const code = this.#calls.needsRehash(encoded, Uint32Array.from(settings));
        if (code !== NEEDS_REHASH) {
            check(code);
        }
        return code === NEEDS_REHASH;
    }
}
