// Peppers that rotate: secret keys, each with an ID that is stored beside the hashes made with it.
import { bytesOf } from './bytes.js';
import { hash, verifyAndRenew, verifyUnknown } from './calls.js';
import { UnknownPepper } from './errors.js';
import { optionOf, optionsOf } from './options.js';

/** Hashes with the newest of several peppers, and verifies with the pepper that a stored hash names. */
export class PepperedHasher {
    #keys = new Map();
    #acceptsUnpeppered;
    #options;

    /** The peppers are pairs of an ID and a key, the newest first: an object would sort IDs that are numbers. */
    constructor(peppers, options = {}) {
        const { acceptUnpeppered = false, ...ofCalls } = { __proto__: null, ...options };
        for (const [keyId, value] of peppers) {
            const key = bytesOf('key', value);
            if (typeof keyId !== 'string' || key.length === 0 || this.#keys.has(keyId)) {
                throw new RangeError('each pepper has to have an ID of its own, a string, and a key that is not empty');
            }
            this.#keys.set(keyId, key);
        }
        if (this.#keys.size === 0) {
            throw new RangeError('there has to be a pepper');
        }
        this.#acceptsUnpeppered = optionOf('acceptUnpeppered', acceptUnpeppered, 'boolean');
        this.#options = ofCalls;
        [this.newest] = this.#keys.keys();
        Object.freeze(this);
    }

    get #newestKey() {
        return this.#keys.get(this.newest);
    }

    /** The key of a stored ID; undefined for null, if that is accepted: writers to the store could choose null. */
    #keyOf(keyId) {
        if (keyId === null && this.#acceptsUnpeppered) {
            return undefined;
        }
        if (!this.#keys.has(keyId)) {
            throw new UnknownPepper(keyId === null
                ? "The stored hash has no pepper, which only 'acceptUnpeppered' accepts"
                : `There is no pepper with the ID '${keyId}'`);
        }
        return this.#keys.get(keyId);
    }

    /** The options that a call is passed, and otherwise the hasher's. An undefined one counts as missing. */
    #optionsOf(options, secret) {
        return { ...this.#options, ...optionsOf(options), secret };
    }

    /** Hashes a password with the newest pepper: its ID and the PHC string, to be stored. */
    async hash(password, options = {}) {
        const own = { ...this.#optionsOf(options, this.#newestKey), salt: undefined, raw: undefined };
        return { keyId: this.newest, encoded: await hash(password, own) };
    }

    /** Whether a password matches, and what to store in place of these: an ID and a PHC string, or null. */
    async verifyAndUpdate(keyId, encoded, password, options = {}) {
        const own = this.#optionsOf(options, this.#keyOf(keyId));
        const newSecret = keyId === this.newest ? undefined : this.#newestKey;
        const { matches, update } = await verifyAndRenew(encoded, password, own, newSecret);
        return { matches, update: update === null ? null : { keyId: this.newest, encoded: update } };
    }

    /** Takes as long as a verification, for a user who does not exist, and gives false. */
    async verifyUnknown(password, options = {}) {
        return verifyUnknown(password, this.#optionsOf(options, this.#newestKey));
    }
}
