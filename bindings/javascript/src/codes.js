// The numbers that the library's calls return (proved_argon2.h), and the errors that they become.
import * as errors from './errors.js';

export const OK = 0;
export const OUT_OF_MEMORY = 20;
export const WORKER_REFUSED = 21;
export const MISMATCH = 64;
export const NEEDS_REHASH = 68;
export const TOO_COSTLY = 69;
export const STOPPED = 130;

// A string has a character outside of ASCII, so it is no encoded hash.
const NOT_ASCII = 66;
const DECODING_FAIL = 19;

/** A call returned the number of an error. */
export class Rejected extends Error {
    constructor(code, cause) {
        super(`error ${code}`, { cause });
        this.code = code === NOT_ASCII ? DECODING_FAIL : code;
    }
}

/** The error to throw in place of an engine's: by a RangeError it denies memory. */
export const deniedOr = (error) => (error instanceof RangeError ? new Rejected(OUT_OF_MEMORY) : error);

/** Throws if a call returned the number of an error. */
export function check(code) {
    if (code !== OK) {
        throw new Rejected(code);
    }
}

/** The library's message for each number. */
const messages = new Map([
    [1, 'Output is too short'],
    [2, 'Output is too long'],
    [3, 'Password is too short'],
    [4, 'Password is too long'],
    [5, 'Salt is too short'],
    [6, 'Salt is too long'],
    [7, 'Associated data is too short'],
    [8, 'Associated data is too long'],
    [9, 'Secret is too short'],
    [10, 'Secret is too long'],
    [11, 'Time cost is too small'],
    [12, 'Time cost is too large'],
    [13, 'Memory cost is too small'],
    [14, 'Memory cost is too large'],
    [15, 'Too few lanes'],
    [16, 'Too many lanes'],
    [17, 'There is no such type of Argon2'],
    [18, 'There is no such version of Argon2'],
    [19, 'Decoding failed'],
    [20, 'Out of memory'],
    [21, 'A worker was refused'],
    [64, 'The password does not match'],
    [65, 'The buffer has the wrong length'],
    [66, 'The encoded hash is not ASCII'],
    [67, 'There is no error of this number'],
    [68, 'The encoded hash was made with other settings'],
    [69, 'The encoded hash is above the limits'],
    [70, 'No valid settings have such a job'],
    [71, 'The job has no such pass, slice or lane'],
    [72, 'There are too many or too few blocks'],
    [128, 'A pointer is null'],
    [129, 'There are no random bytes'],
    [130, 'The hash was stopped'],
    [131, 'The processor is too old'],
    [132, 'The memory is at an address that is not a multiple of 8'],
]);

const classes = Object.values(errors);

/** The error of a number. Its message has the library's words and, if there is a cause, that of the cause. */
export function errorOf({ code, cause }) {
    const words = messages.get(code) ?? `error ${code}`;
    const Named = classes.find((errorClass) => errorClass.prototype.code === code) ?? errors.Argon2Error;
    return cause === undefined ? new Named(words) : new Named(`${words}: ${cause.message}`, { cause });
}
