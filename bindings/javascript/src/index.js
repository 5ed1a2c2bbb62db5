// Argon2 password hashing (RFC 9106) over proved code, native in Node. docs/JAVASCRIPT.md says how to use it.
import { hash, needsRehash, verify, verifyAndUpdate, verifyUnknown } from './calls.js';
import { Line } from './line.js';
import { argon2d, argon2i, argon2id, defaultLimits, presets } from './options.js';
import { PepperedHasher } from './peppers.js';
import { tune } from './tuning.js';

export * from './errors.js';
export {
    hash, verify, verifyAndUpdate, verifyUnknown, needsRehash, Line, PepperedHasher, tune, argon2d, argon2i, argon2id,
    presets, defaultLimits,
};

export default Object.freeze({
    hash, verify, verifyAndUpdate, verifyUnknown, needsRehash, Line, PepperedHasher, tune, argon2d, argon2i, argon2id,
    presets, defaultLimits,
});
