// Finds settings for this machine by measuring hashes.
import { allocate } from './bytes.js';
import { callInLine, hash, searchByAddon } from './calls.js';
import { DEFAULTS, defaultLimits } from './options.js';

/** The least memory and the least work among OWASP's choices. With less, a hash does not protect a password well. */
const LEAST_MEMORY = 7168;
const LEAST_WORK = 5 * LEAST_MEMORY;
const ROUNDS = 3;
/** The longest time that the addon is passed: eleven days. */
const MOST_MILLISECONDS = 10 ** 9;

/** Strong settings whose hash takes at most this many milliseconds here. The addon searches, or else this package. */
export async function tune(milliseconds, options = {}) {
    const { memoryCost = 65536, parallelism = 1, ...running } = { __proto__: null, ...options };
    if (typeof milliseconds !== 'number') {
        throw new TypeError("'milliseconds' has to be a number");
    }
    const within = milliseconds > 0 ? Math.min(milliseconds, MOST_MILLISECONDS) : 0;
    const settings = { ...DEFAULTS, memoryCost, parallelism };
    const found = await searchByAddon({ __proto__: null, ...running, ...settings }, within);
    if (found === null) {
        throw tooSlow(milliseconds, memoryCost);
    }
    const costs = found ?? await fittingCosts(milliseconds, memoryCost, measureBy(running, settings));
    const parameters = { ...settings, memoryCost: costs.memory, timeCost: costs.passes };
    return { parameters, milliseconds: costs.took };
}

/** Returns a function that measures a hash with a memory and passes. */
function measureBy(running, settings) {
    const salt = allocate(8);
    return (memoryCost, timeCost) => leastOf({ __proto__: null, ...running, ...settings, memoryCost, timeCost, salt });
}

/** Halves the memory until a hash fits into the time, and then adds as many passes as fit. */
export async function fittingCosts(milliseconds, memoryCost, measure) {
    for (let memory = memoryCost; memory >= LEAST_MEMORY; memory = Math.floor(memory / 2)) {
        const passes = Math.ceil(LEAST_WORK / memory);
        const took = await measure(memory, passes);
        if (took <= milliseconds) {
            return withPasses(milliseconds, { memory, passes, took }, measure);
        }
    }
    throw tooSlow(milliseconds, memoryCost);
}

const tooSlow = (milliseconds, memoryCost) =>
    new RangeError(`no settings for passwords within ${memoryCost} KiB take at most ${milliseconds} milliseconds here`);

/** Raises the passes as far as the time allows. */
async function withPasses(milliseconds, costs, measure) {
    const { memory, passes: least, took: tookLeast } = costs;
    const { timeCost, work } = defaultLimits;
    const most = Math.min(Math.floor(least * milliseconds / tookLeast), timeCost, Math.floor(work / memory));
    for (let passes = most; passes > least; passes -= 1) {
        const took = await measure(memory, passes);
        if (took <= milliseconds) {
            return { memory, passes, took };
        }
    }
    return costs;
}

/** The milliseconds that a hash takes: the least of a few, without the time that it waits in a line. */
function leastOf({ line, ...options }) {
    return callInLine(line, options, undefined, async () => {
        let least = Infinity;
        for (let round = 0; round < ROUNDS; round += 1) {
            const begun = performance.now();
            await hash('', options);
            least = Math.min(least, performance.now() - begun);
        }
        return least;
    });
}
