// The calls that hash and verify.
import { allocate, copyOf, Inputs } from './bytes.js';
import { MISMATCH, NEEDS_REHASH, Rejected, TOO_COSTLY, check, errorOf } from './codes.js';
import { Encoder, phcOf } from './encoder.js';
import { Argon2Error } from './errors.js';
import { Line } from './line.js';
import { openCalls, runInPlace } from './module.js';
import { addonFor, runByThreads } from './native.js';
import {
    encodedOf, inputsOf, isRaw, limitsOf, optionOf, optionsOf, randomSalt, runningOf, SALT_LENGTH, settingsOf,
} from './options.js';
import { canStartWorkers } from './platform.js';
import { runByWorkers } from './pool.js';
import { lanesOf } from './run.js';
import { Progress } from './turns.js';

/** The maximum number of threads that verify a stored string, as in the library's other languages. */
const MAX_THREADS_OF_STRING = 16;

/** The size of proved_argon2_tuning: three pairs of settings, and the nanoseconds. */
const NUMBERS_OF_TUNING = 4;
const NANOSECONDS = 10 ** 6; // of a millisecond

/** How a call runs: its options, with the addon if it uses that, and with its progress. */
function waysOf(own) {
    const { native, onProgress, signal, ...running } = runningOf(own);
    const addon = addonFor(native);
    return { ...running, addon: running.worker ? addon : undefined, progress: new Progress(onProgress, signal) };
}

/** A task with these properties alone: it inherits none. */
const taskOf = (properties) => ({ __proto__: null, ...properties });

/** Computes a task by the addon, by workers, or in this thread. */
function runBy(task, { addon, worker, threads, progress }) {
    const most = Math.min(threads, lanesOf(task.settings));
    if (addon) {
        return runByThreads(addon, task, most, progress);
    }
    return worker && canStartWorkers() ? runByWorkers(task, most, progress) : runInPlace(task, progress);
}

/** Computes a task whose settings were checked. Returns code and tag, or throws if it was stopped meanwhile. */
async function compute(task, ways) {
    const { progress } = ways;
    progress.throwIfStopped();
    let outcome;
    try {
        outcome = await runBy(task, ways);
    } finally {
        if (progress.isStopped) {
            outcome?.tag?.fill(0);
        }
        progress.throwIfStopped();
    }
    return outcome;
}

/** Makes a call, in the caller's line if there is one, and returns its result. Then the inputs are overwritten. */
export async function callInLine(line, running, inputs, call) {
    try {
        if (line !== undefined && !(line instanceof Line)) {
            throw new TypeError("'line' has to be a Line");
        }
        return await (line ? line.run(call, running) : call());
    } finally {
        inputs?.clear();
    }
}

/** Does the same with an encoder. The number of an error becomes an error of its class. */
function callWith({ line, addon, progress }, inputs, work) {
    return callInLine(line, progress, inputs, async () => {
        try {
            return await work(new Encoder(addon ?? await openCalls()));
        } catch (error) {
            throw error instanceof Rejected ? errorOf(error) : error;
        }
    });
}

/** Hashes a password to a PHC string, or to bytes. */
export async function hash(password, options = {}) {
    const own = optionsOf(options);
    return hashInputs(own, () => inputsOf(password, own));
}

/** Hashes inputs, which are taken once the other options are known to be valid. */
async function hashInputs(own, takeInputs) {
    const settings = settingsOf(own);
    const ways = waysOf(own);
    const raw = isRaw(own);
    const inputs = takeInputs();
    const salt = copyOf(inputs.salt);
    return callWith(ways, inputs, async (encoder) => {
        encoder.checkSettings(settings, inputs);
        const isText = !raw && ways.addon !== undefined;
        const textLength = isText ? encoder.sizeOf(salt, settings) : undefined;
        const { code, tag } = await compute(taskOf({ settings, saltLength: 0, inputs, textLength }), ways);
        check(code);
        if (isText) {
            return phcOf(tag);
        }
        return raw ? tag : encodeAndClear(encoder, salt, settings, tag);
    });
}

/** The PHC string of a tag. The tag is overwritten. */
function encodeAndClear(encoder, salt, settings, tag) {
    try {
        return encoder.encode(salt, settings, tag);
    } finally {
        tag.fill(0);
    }
}

/** How a verification runs, and the limits of its PHC string. */
function verifyingWaysOf(own) {
    const limits = limitsOf(own);
    const ways = waysOf(own);
    return { ...ways, limits, threads: Math.min(ways.threads, MAX_THREADS_OF_STRING) };
}

/** Verifies a password against a PHC string. If that cannot be decided, it rejects. */
export async function verify(encoded, password, options = {}) {
    const own = optionsOf(options);
    const { data } = encodedOf(encoded);
    const ways = verifyingWaysOf(own);
    const { matches } = await verifyInputs(encoded, verifiedOf(password, data, own), ways);
    return matches;
}

/** The inputs of a verification. The associated data of the PHC string is that of options without any. */
const verifiedOf = (password, data, own) =>
    inputsOf(password, { __proto__: null, associatedData: data, ...own, salt: allocate(0) });

/**
 * Does the same. For a renewal, with the new settings and perhaps a new secret, it also returns the new PHC string if
 * the addon made one, or whether it is still to be made: the addon makes both hashes with the same associated data.
 */
async function verifyInputs(encoded, inputs, ways, renewal) {
    const { bytes } = encodedOf(encoded);
    return callWith(ways, inputs, async (encoder) => {
        const { limits, addon } = ways;
        const decoded = encoder.decode(bytes, limits, inputs);
        const byAddon = addon && renewal?.hasSameData
            && { ...renewal, textLength: encoder.sizeOf(allocate(SALT_LENGTH), renewal.settings) };
        const task = taskOf({ encoded: bytes, inputs, limits, renewal: byAddon || undefined, ...decoded });
        const { code, tag } = await compute(task, ways);
        if (code !== MISMATCH && code !== NEEDS_REHASH) {
            check(code);
        }
        const isDue = !byAddon && renewal && isOutdated(decoded, renewal);
        return { matches: code !== MISMATCH, isDue, update: code === NEEDS_REHASH ? phcOf(tag) : null };
    });
}

/** Whether a string is to be renewed, as the addon decides it. */
function isOutdated({ settings, saltLength }, { settings: wanted, newSecret }) {
    return newSecret !== undefined || saltLength !== SALT_LENGTH || wanted.some((number, i) => number !== settings[i]);
}

/** Takes as long as verifying a PHC string of these settings, for a user who does not exist, and gives false. */
export async function verifyUnknown(password, options = {}) {
    const own = optionsOf(options);
    const settings = settingsOf(own);
    const ways = verifyingWaysOf(own);
    // (As in C, the salt is fixed: nobody learns the tag.)
    const inputs = inputsOf(password, { __proto__: null, ...own, salt: allocate(SALT_LENGTH) });
    return callWith(ways, inputs, async (encoder) => {
        encoder.checkSettings(settings, inputs);
        const { code, tag } = await compute(taskOf({ settings, saltLength: 0, inputs, isUnknown: true }), ways);
        tag?.fill(0);
        if (code !== MISMATCH) {
            check(code);
        }
        return false;
    });
}

/**
 * Has the addon search for settings whose hash takes at most this time. Returns their memory and passes, and the
 * milliseconds of a hash; null if none is fast enough; or undefined if the addon does not compute.
 */
export async function searchByAddon(options, milliseconds) {
    const own = optionsOf(options);
    const settings = settingsOf(own);
    const ways = waysOf(own);
    if (ways.addon === undefined) {
        return undefined;
    }
    const found = new BigUint64Array(NUMBERS_OF_TUNING);
    return callWith(ways, undefined, async () => {
        const nanoseconds = BigInt(Math.floor(milliseconds * NANOSECONDS));
        const { code } = await compute(taskOf({ settings, nanoseconds, found, inputs: new Inputs({}) }), ways);
        if (code === TOO_COSTLY) {
            return null;
        }
        check(code);
        const [, , memory, passes] = new Uint32Array(found.buffer);
        return { memory, passes, took: Number(found.at(-1)) / NANOSECONDS };
    });
}

/** Whether a PHC string has other settings than these. */
export async function needsRehash(encoded, options = {}) {
    const { bytes } = encodedOf(encoded);
    const own = optionsOf(options);
    const settings = settingsOf(own);
    const ways = { __proto__: null, addon: addonFor(optionOf('native', own.native, 'boolean')) };
    return callWith(ways, undefined, (encoder) => encoder.needsRehash(bytes, settings));
}

/**
 * Verifies a password. If it matches, and the PHC string has other settings than the options, it is also hashed anew.
 * If that hash cannot be computed, the password matches all the same.
 */
export async function verifyAndUpdate(encoded, password, options = {}) {
    return verifyAndRenew(encoded, password, options);
}

/** Does the same. If a new secret is passed, a match is always hashed anew, with that secret. */
export async function verifyAndRenew(encoded, password, options, newSecret) {
    const all = optionsOf(options);
    const settings = settingsOf(all); // (rejects invalid settings whatever the password is)
    const limits = all.limits && limitsOf(all);
    const { data } = encodedOf(encoded);
    const inputs = verifiedOf(password, data, all);
    const own = optionsOf({ ...all, limits, line: undefined, raw: undefined });
    return callInLine(all.line, all, inputs, async () => {
        const hasSameData = data === undefined || own.associatedData !== undefined;
        const renewal = { settings, newSecret, hasSameData };
        const { matches, isDue, update } = await verifyKept(encoded, inputs, verifyingWaysOf(own), renewal);
        return { matches, update: matches && isDue ? await renewed(inputs, own, newSecret) : update };
    });
}

/** Verifies inputs that are needed again if the PHC string is renewed. */
async function verifyKept(encoded, inputs, ways, renewal) {
    inputs.isKept = true;
    try {
        return await verifyInputs(encoded, inputs, ways, renewal);
    } finally {
        inputs.isKept = false;
    }
}

/** The inputs of the new hash. (Data of the old PHC string, which no option passes, is none of them.) */
function renewedInputsOf({ password, secret, associatedData }, own, newSecret) {
    return new Inputs({
        password,
        salt: randomSalt(),
        secret: newSecret === undefined ? secret : copyOf(newSecret),
        associatedData: own.associatedData === undefined ? allocate(0) : associatedData,
    });
}

/** The PHC string to store in place of the old one, or null if the old one stays because the new one fails. */
async function renewed(inputs, options, newSecret) {
    const progress = new Progress(options.onProgress, options.signal);
    const onProgress = options.onProgress && ((done, all) => {
        progress.report(done, all);
        progress.throwIfStopped();
    });
    try {
        const own = optionsOf({ ...options, onProgress });
        return await hashInputs(own, () => renewedInputsOf(inputs, own, newSecret));
    } catch (error) {
        progress.throwIfStopped(); // whatever class the callback's error or the signal's reason has
        if (error instanceof Argon2Error || error instanceof RangeError) {
            return null;
        }
        throw error;
    }
}
