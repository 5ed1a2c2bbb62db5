// A login of a service, which docs/USE.md describes.
import { Line, verifyAndUpdate, verifyUnknown } from 'proved-argon2';

const settings = { memoryCost: 19456, timeCost: 2, parallelism: 1 }; // of new hashes
const longest = 1024; // characters of a password
// Two logins are checked at the same time, each with 19 MiB. 32 more wait for their turn, which takes under a second.
const line = new Line({ concurrency: 2, waiting: 32 });

/** The HTTP status that answers a verdict: 503 means "try again later". */
export const statuses = new Map([[true, 200], [false, 401], [null, 503]]);

/** A user's name on one line of the log. */
const shown = (user) => String(user).replace(/[^ -~]/g, '?');

/** Verifies against the stored hash. If there is no such user, it takes as long, and does not match. */
async function verified(password, stored, options) {
    return stored === null
        ? { matches: await verifyUnknown(password, options), update: null }
        : verifyAndUpdate(stored, password, options);
}

/**
 * Whether the password matches, or null if that cannot be said now, and what to store from now on. Pass null as the
 * stored hash of a user who does not exist. The signal is aborted when the client leaves.
 */
export async function logIn(user, password, stored, secret, signal) {
    if (typeof password !== 'string' || password.length > longest) {
        console.error(`no password: ${shown(user)}`);
        return [false, stored];
    }
    try {
        const { matches, update } = await verified(password, stored, { ...settings, secret, signal, line });
        console.error(`${matches ? 'logged in' : 'wrong user or password'}: ${shown(user)}`);
        return [matches, update ?? stored];
    } catch (error) {
        console.error(`${error.name}: ${shown(user)}: ${error.message}`);
        return [null, stored];
    }
}
