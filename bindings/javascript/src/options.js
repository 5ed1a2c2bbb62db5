// The options that a caller passes. They are checked and copied at once, since the caller may change them later. Each
// is read once, and only if it is an object's own property: properties of Object.prototype are ignored.
import { allocate, bytesOf, Inputs, passwordOf } from './bytes.js';
import { NoRandomBytes, OutOfMemory } from './errors.js';
import { requireEngine } from './platform.js';

/** The variants, which differ in how a block's reference is chosen (RFC 9106, section 1). */
export const argon2d = 0;
export const argon2i = 1;
export const argon2id = 2;

const MAX_NUMBER = 0xffffffff;
/** The bytes of a salt that the package draws. */
export const SALT_LENGTH = 16;

/** The default settings: those of OWASP's second recommendation. */
export const DEFAULTS = Object.freeze({
    type: argon2id, version: 0x13, memoryCost: 19456, timeCost: 2, parallelism: 1, hashLength: 32,
});

const preset = (memoryCost, timeCost) => Object.freeze({ ...DEFAULTS, memoryCost, timeCost });

/** Recommended settings. OWASP calls its five equal in strength. RFC 9106 recommends its own with four lanes. */
export const presets = Object.freeze({
    owasp1: preset(47104, 1),
    owasp2: preset(19456, 2),
    owasp3: preset(12288, 3),
    owasp4: preset(9216, 4),
    owasp5: preset(7168, 5),
    rfc9106: preset(2097152, 1),
    rfc9106LowMem: preset(65536, 3),
});

/** The default limits on the costs of a PHC string that is verified. */
export const defaultLimits = Object.freeze({ memoryCost: 2097152, timeCost: 10, parallelism: 16, work: 4194304 });

const NO_LIMITS = Object.freeze({
    memoryCost: MAX_NUMBER, timeCost: MAX_NUMBER, parallelism: MAX_NUMBER, work: 2n ** 64n - 1n,
});

const NAMES_OF_OPTIONS = new Set([
    ...Object.keys(DEFAULTS), 'salt', 'secret', 'associatedData', 'raw', 'limits', 'onProgress', 'signal', 'native',
    'worker', 'threads', 'line',
]);
const NAMES_OF_LIMITS = new Set(Object.keys(defaultLimits));

const typeError = (name, expected) => new TypeError(`'${name}' has to be ${expected}`);

/** The own properties of an object that have a value, each read once. */
export function ownOf(object, names, what) {
    if (Object.prototype.toString.call(object) !== '[object Object]') {
        throw typeError(what, 'an object');
    }
    const all = { ...object };
    const unknown = Object.keys(all).find((name) => !names.has(name));
    if (unknown !== undefined) {
        throw new TypeError(`there is no option '${unknown}'`);
    }
    const isDefined = ([, value]) => value !== undefined;
    return { __proto__: null, ...Object.fromEntries(Object.entries(all).filter(isDefined)) };
}

export function optionsOf(options) {
    requireEngine();
    return ownOf(options, NAMES_OF_OPTIONS, 'options');
}

export function numberOf(name, value, most = MAX_NUMBER) {
    if (typeof value !== 'number') {
        throw typeError(name, 'a number');
    }
    if (!Number.isInteger(value) || value < 0 || value > most) {
        throw new RangeError(`'${name}' has to be an integer from 0 to ${most}`);
    }
    return value;
}

/** An option, whose type is checked. `null` counts as a value of a wrong type. */
export function optionOf(name, value, type) {
    if (value !== undefined && typeof value !== type) {
        throw typeError(name, `a ${type}`);
    }
    return value;
}

/** The settings of a hash, as the library has them. */
export function settingsOf(own) {
    const all = { ...DEFAULTS, ...own };
    return Object.keys(DEFAULTS).map((name) => numberOf(name, all[name]));
}

/** The limits of a string. `null` means no limits. */
export function limitsOf({ limits = {} }) {
    if (limits === null) {
        return NO_LIMITS;
    }
    const all = { ...defaultLimits, ...ownOf(limits, NAMES_OF_LIMITS, 'limits') };
    const most = (name) => (name === 'work' ? Number.MAX_SAFE_INTEGER : MAX_NUMBER);
    Object.entries(all).forEach(([name, value]) => numberOf(name, value, most(name)));
    return all;
}

// Strings of node-argon2 may contain the associated data, as `data=..` behind the lanes. RFC 9106 and the reference
// implementation do not know this part. The proved decoder does not either: it reads the string without the part.
const WITH_DATA = /^(\$argon2(?:id|i|d)\$(?:v=\d+\$)?m=\d+,t=\d+,p=\d+),data=([A-Za-z0-9+/]+)(\$[^$]*\$[^$]*)$/;

/** Decodes base64 without padding. Returns undefined if the text is not how these bytes are encoded. */
function decodeBase64(text) {
    try {
        const characters = atob(text);
        return btoa(characters).replace(/=*$/, '') === text
            ? Uint8Array.from(characters, (character) => character.charCodeAt(0)) : undefined;
    } catch {
        return undefined;
    }
}

/** The bytes of a string without its associated data, and the data. Any other string stays as it is. */
export function encodedOf(encoded) {
    if (typeof encoded !== 'string') {
        throw typeError('encoded', 'a string');
    }
    const [, front, base64, rest] = encoded.match(WITH_DATA) ?? [];
    const data = base64 && decodeBase64(base64);
    return { bytes: new TextEncoder().encode(data ? front + rest : encoded), data };
}

/** The bytes of an option, or no bytes if it is missing. */
const bytesOrNone = (name, value) => (value === undefined ? allocate(0) : bytesOf(name, value));

/** A new salt of 16 bytes (RFC 9106, 3.1). */
export function randomSalt() {
    try {
        return crypto.getRandomValues(allocate(SALT_LENGTH));
    } catch (cause) {
        throw new NoRandomBytes('There are no random bytes', { cause });
    }
}

/** The inputs of a hash or of a verification. If one is rejected, the copies of the others are overwritten. */
export function inputsOf(password, { salt, secret, associatedData }) {
    const inputs = new Inputs({});
    try {
        inputs.salt = salt === undefined ? randomSalt() : bytesOf('salt', salt);
        inputs.secret = bytesOrNone('secret', secret);
        inputs.associatedData = bytesOrNone('associatedData', associatedData);
        inputs.password = passwordOf(password);
        return inputs;
    } catch (error) {
        inputs.clear();
        throw error instanceof RangeError ? new OutOfMemory('Out of memory') : error;
    }
}

function threadsOf(threads = MAX_NUMBER) {
    if (numberOf('threads', threads) === 0) {
        throw typeError('threads', 'at least 1');
    }
    return threads;
}

export function signalOf(signal) {
    if (signal !== undefined && !(signal instanceof AbortSignal)) {
        throw typeError('signal', 'an AbortSignal');
    }
    return signal;
}

/** How a call runs. */
export function runningOf({ onProgress, signal, native, worker = true, threads, line }) {
    return {
        onProgress: optionOf('onProgress', onProgress, 'function'),
        signal: signalOf(signal),
        native: optionOf('native', native, 'boolean'),
        worker: optionOf('worker', worker, 'boolean'),
        threads: threadsOf(threads),
        line,
    };
}

export const isRaw = ({ raw = false }) => optionOf('raw', raw, 'boolean');
