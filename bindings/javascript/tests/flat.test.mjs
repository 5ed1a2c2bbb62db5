// A process's memory does not grow over calls of several kinds, after idling, or if workers die.
import assert from 'node:assert/strict';
import os from 'node:os';
import { test } from 'node:test';
import { setTimeout as sleep } from 'node:timers/promises';

const MIB = 2 ** 20;
const WORKERS = 4;
const CALLS = 300;
/** In KiB. The larger one is as much as a worker's memory may take. */
const SIZES = [4096, 16384];
const LANES = [1, 4];
/** A process may grow by its workers' code and heaps. */
const BESIDES = 96 * MIB;
/** Workers stay this long, in milliseconds. */
const LONG = 1000;
const SOON = 50;
/** Enough passes that a call is killed long before its end. */
const ENDLESS = 2 ** 20;

os.availableParallelism = () => WORKERS;

// Dropped memory has to be collected.
process.env.KEEPS_INSTANCES = 'no';
const { letStay, workers } = await import('./watching.mjs');
const argon2 = await import('proved-argon2');
await argon2.hash('password', { memoryCost: 64, native: false });
const start = process.memoryUsage.rss();
const above = () => process.memoryUsage.rss() - start;
const inMib = (bytes) => `${Math.round(bytes / MIB)} MiB`;

const settingsOf = (call) =>
    ({ memoryCost: SIZES[(call >> 1) % 2], parallelism: LANES[call % 2], timeCost: 1, native: false });

function assertFlat(bytes, memories) {
    const limit = memories * SIZES[1] * 1024 + BESIDES;
    assert.ok(bytes <= limit, `${inMib(bytes)} above the start, and ${inMib(limit)} is the limit`);
}

/** Ends all workers once a call has begun. */
const killer = () => {
    const alive = [...workers];
    return () => alive.splice(0).forEach((worker) => worker.terminate());
};

async function hashOrDie(call) {
    const isKilled = call % 5 === 4;
    const onProgress = isKilled ? killer() : undefined;
    const timeCost = isKilled ? ENDLESS : 3;
    const made = argon2.hash('password', { ...settingsOf(call), timeCost, onProgress });
    assert.equal(await made.then(() => 'made', (error) => error.name), isKilled ? 'WorkerRefused' : 'made');
}

async function hashAndRest(call) {
    await argon2.hash('password', settingsOf(call));
    await sleep(SOON);
}

const hashWith = (options) => (call) => argon2.hash('password', { ...settingsOf(call), ...options });
const manyWith = (options, count, first) => Array.from({ length: count }, (_, i) => hashWith(options)(first + i));
const hashTogether = (round) => Promise.all(manyWith({}, 10, 10 * round));
let waiting;

function hashInTurn(call) {
    waiting ??= manyWith({ worker: false }, 40, 0);
    return waiting[call];
}

/** Calls: how many, how long workers stay meanwhile, how many memories they may take, and what each does. */
const KINDS = {
    'calls of one and four lanes and two sizes take one memory a worker at most': [CALLS, LONG, WORKERS, hashWith({})],
    'calls at the same time by all workers take one memory a worker at most': [CALLS / 10, LONG, WORKERS, hashTogether],
    'calls between which workers end take one memory a worker at most': [CALLS / 10, 1, WORKERS, hashAndRest],
    'calls in which workers are killed take one memory a worker at most': [CALLS / 5, LONG, WORKERS, hashOrDie],
    'calls of the addon, one after another, keep one memory': [CALLS, LONG, 1, hashWith({ native: true })],
    'ten times as many calls of the addon keep no more':
        [10 * CALLS, LONG, 1, hashWith({ native: true, memoryCost: 1024 })],
    'calls in the thread of the caller take one memory, however many wait': [40, LONG, 1, hashInTurn],
};

for (const [what, [calls, stay, memories, makeCall]] of Object.entries(KINDS)) {
    test(`${what}, and an idle process is back at its first size`, async () => {
        letStay(stay);
        let most = 0;
        for (let call = 0; call < calls; call++) {
            await makeCall(call);
            most = Math.max(most, above());
        }
        // If workers end soon, their memory may be gone unseen.
        assert.ok(stay < LONG || memories < WORKERS || most > SIZES[1] * 1024 / 2, 'no memory was seen');
        assertFlat(most, memories);
        letStay(SOON);
        await argon2.hash('password', settingsOf(3));
        while (workers.length > 0) {
            await sleep(SOON);
        }
        assertFlat(above(), memories === 1 ? 1 : 0);
    });
}

test('the addon keeps a memory for each simultaneous hash, and frees them after ten idle seconds', async () => {
    const large = { memoryCost: 65536, timeCost: 1, native: true };
    const bytes = large.memoryCost * 1024;
    const before = above();
    await Promise.all(Array.from({ length: 4 * WORKERS }, () => argon2.hash('password', large)));
    const kept = above() - before;
    assert.ok(kept > bytes / 2, `${inMib(kept)} were kept`);
    assert.ok(kept <= WORKERS * bytes + BESIDES, `${inMib(kept)} were kept`);
    await sleep(12000);
    const left = above() - before;
    assert.ok(left < bytes / 2, `${inMib(left)} were left`);
});
