// The errors of calls, each with a class. Those of the library have the numbers that they have in C.

/** A call failed. `name` is the name of the error's class, and `code` is its number. */
export class Argon2Error extends Error {}

/** Defines the class of an error. */
function define(name, code) {
    const error = class extends Argon2Error {};
    Object.defineProperty(error, 'name', { value: name });
    for (const [key, value] of Object.entries({ name, code })) {
        Object.defineProperty(error.prototype, key, { value });
    }
    return error;
}

Object.defineProperty(Argon2Error.prototype, 'name', { value: 'Argon2Error' });

export const OutputTooShort = define('OutputTooShort', 1);
export const OutputTooLong = define('OutputTooLong', 2);
export const PwdTooShort = define('PwdTooShort', 3);
export const PwdTooLong = define('PwdTooLong', 4);
export const SaltTooShort = define('SaltTooShort', 5);
export const SaltTooLong = define('SaltTooLong', 6);
export const AdTooShort = define('AdTooShort', 7);
export const AdTooLong = define('AdTooLong', 8);
export const SecretTooShort = define('SecretTooShort', 9);
export const SecretTooLong = define('SecretTooLong', 10);
export const TimeTooSmall = define('TimeTooSmall', 11);
export const TimeTooLarge = define('TimeTooLarge', 12);
export const MemoryTooLittle = define('MemoryTooLittle', 13);
export const MemoryTooMuch = define('MemoryTooMuch', 14);
export const LanesTooFew = define('LanesTooFew', 15);
export const LanesTooMany = define('LanesTooMany', 16);
export const IncorrectType = define('IncorrectType', 17);
export const IncorrectVersion = define('IncorrectVersion', 18);
export const DecodingFail = define('DecodingFail', 19);
export const OutOfMemory = define('OutOfMemory', 20);
export const WorkerRefused = define('WorkerRefused', 21);
export const TooCostly = define('TooCostly', 69);
export const NoRandomBytes = define('NoRandomBytes', 129);

// (the library for C has none of these)
/** The engine lacks what the package needs. */
export const Unsupported = define('Unsupported', 256);
/** As many calls compute and wait as the line allows. */
export const BusyError = define('BusyError', 257);
/** A hasher has no pepper with the ID of a stored hash, or the stored hash has no pepper. */
export const UnknownPepper = define('UnknownPepper', 258);

/**
 * An aborted signal stopped the call, and `abort` was given no reason. The platform's own error would have the code 20,
 * which is that of `OutOfMemory`.
 */
export class AbortError extends Error {}

for (const [key, value] of Object.entries({ name: 'AbortError', code: 'ABORT_ERR' })) {
    Object.defineProperty(AbortError.prototype, key, { value });
}
