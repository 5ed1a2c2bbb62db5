// The native addon of Node, if it loads: its quick calls, and runs in its own threads.
import { addonFile } from './assets.js';
import { allocate } from './bytes.js';
import { check, deniedOr, OK, Rejected, STOPPED } from './codes.js';
import { limitsAsNumbers } from './encoder.js';
import { Unsupported } from './errors.js';
import { nodeThreads, processors } from './platform.js';
import { hashLengthOf, sizeOf } from './run.js';
import { Places } from './turns.js';

/** The threads that compute: at most one for each processor. */
const computing = new Places(processors);
/** Arrays that a thread reads and writes, kept here so that they are not collected meanwhile. */
const kept = new Set();
let loaded;

/** Loads the addon. Returns it, or the reason why there is none. */
function load() {
    const { process } = globalThis;
    const made = { exports: {} };
    try {
        if (process.env.PROVED_ARGON2_NATIVE === '0') {
            throw new Error('PROVED_ARGON2_NATIVE is 0');
        }
        process.dlopen(made, addonFile(`./${process.platform}-${process.arch}.node`));
        // (The library may have no build that runs on this processor.)
        check(made.exports.check(Uint32Array.of(2, 0x13, 8, 1, 1, 4), BigUint64Array.of(0n, 8n, 0n, 0n)));
        return { addon: made.exports };
    } catch (cause) {
        return { cause };
    }
}

/** The addon, or undefined if `native` is false or it does not load. If `native` is true, it throws instead. */
export function addonFor(native) {
    if (native === false || nodeThreads === undefined && native === undefined) {
        return undefined;
    }
    loaded ??= load();
    const { addon, cause } = loaded;
    if (native && addon === undefined) {
        const { platform, arch } = globalThis.process ?? { platform: 'pages', arch: 'any' };
        const words = `There is no addon for ${platform} on ${arch}, where WebAssembly computes without 'native'`;
        throw new Unsupported(`${words}: ${cause.message}`, { cause });
    }
    return addon;
}

/**
 * How many hashes fit into some bytes at a time. The addon's library counts the whole huge pages that it requests. The
 * engine allocates the memory of WebAssembly, and requests none.
 */
export function hashesAtOnce(settings, bytes) {
    const addon = addonFor();
    if (addon) {
        return addon.hashesAtOnce(Uint32Array.from(settings), BigUint64Array.of(BigInt(Math.floor(bytes))));
    }
    return Math.floor(bytes / sizeOf(settings));
}

/** Allocates a tag. The engine may deny the memory. */
function allocateTag(length) {
    try {
        return allocate(length);
    } catch (error) {
        throw deniedOr(error);
    }
}

/** Room for a new PHC string. Without memory for it the library makes none, and the old one stays. */
function roomFor(length) {
    try {
        return allocate(length);
    } catch {
        return allocate(0);
    }
}

/** A call of the addon, the arrays that it is passed behind the control, and the one of these that it writes. */
function callOf(addon, { encoded, found, inputs, isUnknown, limits, nanoseconds, renewal, settings, textLength }) {
    const { password, salt, secret, associatedData } = inputs;
    if (encoded !== undefined) {
        const parts = [password, encoded, secret, associatedData, limitsAsNumbers(limits)];
        if (renewal === undefined) {
            return { begin: addon.verify, parts };
        }
        const text = roomFor(renewal.textLength);
        const renewing = [renewal.newSecret ?? allocate(0), Uint32Array.from(renewal.settings), text];
        return { begin: addon.renew, parts: [...parts, ...renewing], tag: text };
    }
    const numbers = Uint32Array.from(settings);
    if (found !== undefined) {
        return { begin: addon.tune, parts: [numbers, BigUint64Array.of(nanoseconds), found] };
    }
    if (isUnknown) {
        return { begin: addon.verifyUnknown, parts: [password, secret, numbers] };
    }
    const tag = allocateTag(textLength ?? hashLengthOf(settings));
    const begin = textLength === undefined ? addon.hash : addon.hashEncoded;
    return { begin, parts: [password, salt, secret, associatedData, numbers, tag], tag };
}

/** Waits for the end of a run, and returns its code. */
function codeOf(begin, parts, progress) {
    const [control] = parts;
    const stop = () => Atomics.store(control, 0, 1);
    const forget = progress.whenAborted(stop);
    kept.add(parts);
    return new Promise((resolve) => {
        const hear = (done, value) => {
            if (done === 0) {
                resolve(value);
            } else if (progress.report(done, value)) {
                stop();
            }
        };
        const code = begin(...parts, hear);
        if (code !== OK) {
            resolve(code);
        }
    }).finally(() => {
        kept.delete(parts);
        forget();
    });
}

/** Runs a task by some threads, up to a maximum. Returns its code and its tag. */
export async function runByThreads(addon, task, most, progress) {
    const threads = await computing.takeInTurn(most, progress);
    try {
        if (progress.isStopped) {
            throw new Rejected(STOPPED);
        }
        const { begin, parts, tag } = callOf(addon, task);
        const control = Int32Array.of(0, threads, Number(progress.isReported), Number(progress.canStop));
        return { code: await codeOf(begin, [control, ...parts], progress), tag };
    } finally {
        computing.leave(threads);
    }
}
