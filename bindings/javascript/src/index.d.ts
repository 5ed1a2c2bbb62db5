/** Argon2 password hashing (RFC 9106) by proved code: an addon in Node on Linux, and WebAssembly elsewhere. */

/** Argon2d: each block's reference depends on the contents of blocks, so on the password (RFC 9106, section 1). */
export const argon2d: 0;
/** Argon2i: the references depend on no block. */
export const argon2i: 1;
/** Argon2id, the one to choose: Argon2i in the first half of the first pass, and then Argon2d. */
export const argon2id: 2;

/** The number of a variant: `argon2d`, `argon2i` or `argon2id`. */
export type Type = 0 | 1 | 2;
/** The versions of Argon2: RFC 9106 defines 0x13, and 0x10 is older. */
export type Version = 0x10 | 0x13;
/** Bytes. They are copied when the call is made. */
export type Bytes = ArrayBuffer | ArrayBufferView;

/** The settings of a hash. The defaults are those of `presets.owasp2`. */
export interface Settings {
    /** The variant. */
    type?: Type;
    /** The version. */
    version?: Version;
    /** The memory in KiB, at least 8 a lane. */
    memoryCost?: number;
    /** The passes over the memory. */
    timeCost?: number;
    /** The lanes, which a hash depends on. */
    parallelism?: number;
    /** The length of the hash in bytes, at least 4. */
    hashLength?: number;
}

/** An `AbortSignal`, which stops a call. Declared here, it needs neither the DOM's types nor Node's. */
export interface StopSignal {
    /** Whether it was aborted. */
    readonly aborted: boolean;
    /** Calls a function when it is aborted. */
    addEventListener(type: 'abort', listener: () => void, options?: { once?: boolean }): void;
    /** No longer calls this function. */
    removeEventListener(type: 'abort', listener: () => void): void;
}

/** How a call runs. */
export interface Running {
    /** The progress callback: `done` of `all` slices are filled, four in a pass. If it throws, the call stops. */
    onProgress?: (done: number, all: number) => void;
    /** Stops the call once the current slice is filled. The call rejects with the signal's reason, or `AbortError`. */
    signal?: StopSignal;
    /** `true` computes only by Node's addon, `false` only by WebAssembly. By default the addon computes if it loads. */
    native?: boolean;
    /** `false` computes by WebAssembly in the caller's thread, one call after another, even if `native` is `true`.
     * After each slice other tasks of the thread run. */
    worker?: boolean;
    /** The maximum number of workers or threads, at least 1. Verifying uses at most 16. Default: one for each lane, if
     * there are enough processors. */
    threads?: number;
    /** The line in which the call waits for its turn. */
    line?: Line;
}

/** The options of a `Line`: its limits, and the settings of a hash, from which the default limits are computed. */
export interface LineOptions extends Settings {
    /** How many calls compute at the same time. Default: the number of processors divided by the lanes, or fewer if
     * that many hashes exceed a quarter of the memory. */
    concurrency?: number;
    /** How many more calls may wait. Without it, 16 times as many as may compute. */
    waiting?: number;
}

/**
 * Limits how many calls compute at the same time, and how many more may wait. Any further call rejects with `BusyError`
 * at once. If a call's signal is aborted, the call leaves the line or stops, and its place is free.
 */
export class Line {
    /** By default the limits fit this machine and the default settings. */
    constructor(options?: LineOptions);
    /** How many calls compute at the same time. */
    readonly concurrency: number;
    /** How many more may wait. */
    readonly waiting: number;
    /** How many calls compute now. */
    readonly running: number;
    /** How many calls wait now. */
    readonly queued: number;
    /** How many calls were rejected with `BusyError` so far. */
    readonly refused: number;
    /** Calls a function in its turn, and counts it until it has ended. In the function, make calls without `line`. */
    run<T>(call: () => T | PromiseLike<T>, options?: { signal?: StopSignal }): Promise<T>;
}

/**
 * Further inputs of a hash. The PHC string does not contain them. (A string of node-argon2 may contain the associated
 * data. It is verified with that, unless other data is passed.)
 */
export interface Keys {
    /** A key that is stored apart from the encoded hashes (a pepper). */
    secret?: Bytes;
    /** Data that the hash is bound to, such as the user's name. */
    associatedData?: Bytes;
}

/** The options of `hash`. */
export interface HashOptions extends Settings, Keys, Running {
    /** The salt, at least 8 bytes. Without it, 16 random bytes are used. */
    salt?: Bytes;
}

/** The limits on the costs of a PHC string. The defaults are those of `defaultLimits`. */
export interface Limits {
    /** The memory in KiB. */
    memoryCost?: number;
    /** The passes. */
    timeCost?: number;
    /** The lanes. */
    parallelism?: number;
    /** The memory in KiB times the passes, which determines the time. */
    work?: number;
}

/** The options of `verify`. */
export interface VerifyOptions extends Keys, Running {
    /** The limits on the costs of the PHC string. `null` means no limits. */
    limits?: Limits | null;
}

/** Hashes a password to a raw hash (tag), as bytes. A password that is a string is encoded in UTF-8. */
export function hash(password: string | Bytes, options: HashOptions & { raw: true }): Promise<Uint8Array>;
/**
 * Hashes a password to an encoded hash (PHC string), to be stored. The salt is random unless one is passed. A password
 * that is a string is encoded in UTF-8.
 */
export function hash(password: string | Bytes, options?: HashOptions & { raw?: false }): Promise<string>;
/** Hashes a password to a PHC string or, if `raw` is true, to bytes. */
export function hash(password: string | Bytes, options?: HashOptions & { raw?: boolean }): Promise<string | Uint8Array>;

/**
 * Verifies a password against a PHC string. It rejects with `DecodingFail` if the string is not an encoded hash, with
 * `TooCostly` if it is above the limits, and with other errors if its settings are invalid or memory is denied.
 */
export function verify(encoded: string, password: string | Bytes, options?: VerifyOptions): Promise<boolean>;

/** The options of `verifyAndUpdate`: the settings are those of the new hash. */
export interface UpdateOptions extends Settings, VerifyOptions {}

/** The result of `verifyAndUpdate`. */
export interface Updated {
    /** Whether the password matches. */
    matches: boolean;
    /** The PHC string to store in place of the old one, or null if that stays. */
    update: string | null;
}

/**
 * Verifies a password against a PHC string as `verify` does. If it matches, and the string has other settings than the
 * options, it also hashes the password anew. If only the new hash fails, the old string stays. If the signal is
 * aborted or `onProgress` throws, the call rejects, even after the password has matched. Settings of a wrong type are
 * rejected whether it matches or not.
 */
export function verifyAndUpdate(encoded: string, password: string | Bytes, options?: UpdateOptions): Promise<Updated>;

/**
 * Verifies a password for a user who does not exist. It takes as long as `verify` with a PHC string of these settings,
 * and always gives `false`. Without it an attacker can measure which users exist. It rejects as `hash` does. The limits
 * have no effect.
 */
export function verifyUnknown(password: string | Bytes, options?: UpdateOptions): Promise<false>;

/** The options of a call of a `PepperedHasher`. */
export type PepperOptions = Omit<UpdateOptions, 'secret'>;

/** The options of a `PepperedHasher`, which all its calls have. */
export interface PepperedHasherOptions extends PepperOptions {
    /** `true` accepts stored hashes that have no pepper, whose ID is null. Set it only while you add the first pepper:
     * with it, whoever can write to the store can choose a hash without a pepper. */
    acceptUnpeppered?: boolean;
}

/** The values to store for a user: the ID of the pepper, and the PHC string, which does not contain the ID. */
export interface Peppered {
    /** The ID. */
    keyId: string;
    /** The PHC string. */
    encoded: string;
}

/**
 * Hashes with the newest of several peppers, and verifies with the one of a stored hash. To rotate, put a new pair
 * first; once `verifyAndUpdate` has replaced all hashes of an old key, leave that out.
 */
export class PepperedHasher {
    /** The peppers are pairs of an ID and a key, the newest first, as in an array or a `Map`. Keys are copied. */
    constructor(peppers: Iterable<readonly [string, Bytes]>, options?: PepperedHasherOptions);
    /** The ID of the newest pepper. */
    readonly newest: string;
    /** Hashes a password with the newest pepper. */
    hash(password: string | Bytes, options?: PepperOptions): Promise<Peppered>;
    /**
     * Like the function `verifyAndUpdate`, with the pepper of an ID. If the hash has an older pepper, the password is
     * hashed anew with the newest. For an unknown ID, and for null without `acceptUnpeppered`, it rejects with
     * `UnknownPepper`.
     */
    verifyAndUpdate(
        keyId: string | null, encoded: string, password: string | Bytes, options?: PepperOptions,
    ): Promise<{ matches: boolean, update: Peppered | null }>;
    /** Like the function `verifyUnknown`, with the newest pepper. */
    verifyUnknown(password: string | Bytes, options?: PepperOptions): Promise<false>;
}

/** The options of `tune`. */
export interface TuneOptions extends Running {
    /** The maximum memory in KiB. Without it, 64 MiB. */
    memoryCost?: number;
    /** The lanes. Without it, one. */
    parallelism?: number;
}

/** Settings that `tune` found. */
export interface Tuning {
    /** The settings. */
    parameters: Required<Settings>;
    /** The milliseconds that a hash takes, the least of several. */
    milliseconds: number;
}

/**
 * Finds strong settings whose hash takes at most `milliseconds` here: it halves `memoryCost` until a hash fits,
 * and then adds passes, within the default limits. It rejects with `RangeError` if no halved memory of at least 7
 * MiB, with at least the work of 7 MiB in 5 passes, is fast enough.
 */
export function tune(milliseconds: number, options?: TuneOptions): Promise<Tuning>;

/** Whether a PHC string has other settings than these. Settings that are left out have their defaults. */
export function needsRehash(encoded: string, options?: Settings): Promise<boolean>;

/** Settings with no field left out. */
export type Preset = Readonly<Required<Settings>>;

/**
 * Recommended settings, with one lane. OWASP calls its five equally strong; RFC 9106 (section 4) recommends its two
 * with four lanes. docs/USE.md lists their memory and passes.
 */
export const presets: {
    /** OWASP's first recommendation. */
    readonly owasp1: Preset;
    /** OWASP's second recommendation. */
    readonly owasp2: Preset;
    /** OWASP's third recommendation. */
    readonly owasp3: Preset;
    /** OWASP's fourth recommendation. */
    readonly owasp4: Preset;
    /** OWASP's fifth recommendation. */
    readonly owasp5: Preset;
    /** RFC 9106's first recommendation (section 4). */
    readonly rfc9106: Preset;
    /** RFC 9106's recommendation for little memory (section 4). */
    readonly rfc9106LowMem: Preset;
};

/** The limits of `verify` without `limits`, which docs/USE.md lists. */
export const defaultLimits: Readonly<Required<Limits>>;

/** A call to Argon2 failed. */
export class Argon2Error extends Error {
    /** The name of its class. */
    readonly name: string;
    /** Its number: that of the library for C, or one from 256 on for errors that only this package has. */
    readonly code: number;
}

/** A hash of fewer than 4 bytes. */
export class OutputTooShort extends Argon2Error {}
/** A hash of more than 2^32 - 1 bytes. */
export class OutputTooLong extends Argon2Error {}
/** Never thrown. */
export class PwdTooShort extends Argon2Error {}
/** A password of more than 2^32 - 1 bytes. */
export class PwdTooLong extends Argon2Error {}
/** A salt of fewer than 8 bytes. */
export class SaltTooShort extends Argon2Error {}
/** A salt of more than 2^32 - 1 bytes. */
export class SaltTooLong extends Argon2Error {}
/** Never thrown. */
export class AdTooShort extends Argon2Error {}
/** Associated data of more than 2^32 - 1 bytes. */
export class AdTooLong extends Argon2Error {}
/** Never thrown. */
export class SecretTooShort extends Argon2Error {}
/** A secret of more than 2^32 - 1 bytes. */
export class SecretTooLong extends Argon2Error {}
/** No pass. */
export class TimeTooSmall extends Argon2Error {}
/** Never thrown. */
export class TimeTooLarge extends Argon2Error {}
/** Fewer than 8 KiB a lane. */
export class MemoryTooLittle extends Argon2Error {}
/** Never thrown. */
export class MemoryTooMuch extends Argon2Error {}
/** No lane. */
export class LanesTooFew extends Argon2Error {}
/** More than 16777215 lanes. */
export class LanesTooMany extends Argon2Error {}
/** No variant has this number. */
export class IncorrectType extends Argon2Error {}
/** No version has this number. */
export class IncorrectVersion extends Argon2Error {}
/** The string decodes to no hash of Argon2. */
export class DecodingFail extends Argon2Error {}
/** The engine denied the memory. */
export class OutOfMemory extends Argon2Error {}
/** A worker could not be started, or has failed. The message and `cause` say why. */
export class WorkerRefused extends Argon2Error {}
/** The PHC string is above the limits. No password was compared. */
export class TooCostly extends Argon2Error {}
/** The engine had no random bytes for a salt. `cause` says why. */
export class NoRandomBytes extends Argon2Error {}
/** The engine has no WebAssembly, is a Node that is too old, or has no addon where `native` is `true`. */
export class Unsupported extends Argon2Error {}

/** As many calls compute and wait as the line allows: try again later. */
export class BusyError extends Argon2Error {}
/** A `PepperedHasher` has no pepper with the ID of a stored hash, or the hash has none. No password was compared. */
export class UnknownPepper extends Argon2Error {}

/** An aborted signal stopped the call, and `abort` was given no reason. `cause` is the platform's error. */
export class AbortError extends Error {
    /** The name of its class. */
    readonly name: 'AbortError';
    /** That of Node's own error. */
    readonly code: 'ABORT_ERR';
}

/** All of these except the errors, as one object, for `import argon2 from`. */
declare namespace argon2 {
    export {
        hash, verify, verifyAndUpdate, verifyUnknown, needsRehash, Line, PepperedHasher, tune, argon2d, argon2i,
        argon2id, presets, defaultLimits,
    };
}
export default argon2;
