// A line: a number of calls compute, more wait in order, others are rejected at once, and each call frees its place,
// however it ends.
import assert from 'node:assert/strict';
import { execFile } from 'node:child_process';
import { getEventListeners } from 'node:events';
import os from 'node:os';
import { test } from 'node:test';
import { setImmediate as immediate, setTimeout as sleep } from 'node:timers/promises';
import { promisify } from 'node:util';
import { BusyError, hash, Line, PepperedHasher, verify, verifyAndUpdate } from 'proved-argon2';

const SMALL = { memoryCost: 64, timeCost: 1 };
const ENDLESS = { memoryCost: 4096, timeCost: 2 ** 31 };
const MISMATCH = { matches: false, update: null };
const key = new TextEncoder().encode('pepper');
const old = await hash('password', { ...SMALL, timeCost: 2 });

/** Requires that a line of one place is free: one call computes and one waits. */
async function requireFree(line) {
    const two = [hash('password', { ...SMALL, line }), verify(old, 'password', { line })];
    await assert.rejects(hash('password', { ...SMALL, line }), BusyError);
    assert.equal(await two[1], true);
    assert.equal(await verify(await two[0], 'password', { line }), true);
}

test('some calls compute, some wait in their order, and others are rejected at once', async () => {
    const line = new Line({ concurrency: 2, waiting: 3 });
    const begun = [];
    const ends = [];
    const begin = (number) => line.run(() => new Promise((resolve, reject) => {
        begun.push(number);
        ends[number] = { resolve, reject };
    }));
    const calls = [0, 1, 2, 3, 4].map(begin);
    await assert.rejects(begin(5), { name: 'BusyError', message: 'Too many calls compute or wait', code: 257 });
    assert.deepEqual(begun, [0, 1]);
    assert.deepEqual([line.running, line.queued, line.refused], [2, 3, 1]);
    ends[1].resolve('one');
    assert.equal(await calls[1], 'one');
    calls.push(begin(5));
    await assert.rejects(begin(6), BusyError);
    ends[0].reject(new Error('failed'));
    await assert.rejects(calls[0], /failed/);
    for (const number of [2, 3, 4, 5]) {
        await immediate();
        assert.equal(begun.length, Math.min(6, number + 2));
        ends[number].resolve();
    }
    await Promise.all(calls.slice(1));
    assert.deepEqual(begun, [0, 1, 2, 3, 4, 5]);
    assert.deepEqual([line.running, line.queued, line.refused], [0, 0, 2]);
});

/** Aborts a call as it reports its progress. */
const aborting = (call) => {
    const controller = new AbortController();
    return call({ ...ENDLESS, signal: controller.signal, onProgress: () => controller.abort() });
};
const peppered = new PepperedHasher([['2026', key]], SMALL);
const encoded = (await peppered.hash('password')).encoded;
const OUTCOMES = {
    'a call that is aborted while it computes': (line) => aborting((options) => hash('password', { ...options, line })),
    'a verification that is aborted while it computes': (line) => aborting((options) =>
        verify(old.replace('t=2', 't=4294967295'), 'password', { ...options, limits: null, line })),
    'a call whose signal is already aborted': (line) => hash('password', { line, signal: AbortSignal.abort() }),
    'a call whose callback throws': (line) => hash('password', { line, onProgress: () => assert.fail('AbortError') }),
    'a call with an error': (line) => hash('password', { line, timeCost: 0 }),
    'a string that is not an encoded hash': (line) => verify('x', 'password', { line }),
    'a wrong password': async (line) =>
        assert.deepEqual(await verifyAndUpdate(old, 'Password', { ...SMALL, line }), MISMATCH),
    'a new hash that fails': async (line) =>
        assert.equal((await verifyAndUpdate(old, 'password', { timeCost: 0, line })).matches, true),
    'a call with a pepper': async (line) =>
        assert.deepEqual(await peppered.verifyAndUpdate('2026', encoded, 'Password', { line }), MISMATCH),
    'a function that throws at once': (line) => line.run(() => assert.fail('thrown at once')),
    'a value that is not a function': (line) => line.run(),
};

for (const [what, call] of Object.entries(OUTCOMES)) {
    test(`${what} frees its place`, async () => {
        const line = new Line({ concurrency: 1, waiting: 1 });
        await Promise.resolve(call(line)).catch((error) => assert.notEqual(error.name, 'BusyError'));
        await requireFree(line);
    });
}

test('a call that is aborted while it waits leaves the line', async () => {
    const line = new Line({ concurrency: 1, waiting: 1 });
    const controllers = [new AbortController(), new AbortController()];
    const calls = controllers.map(({ signal }) => hash('password', { ...ENDLESS, line, signal }));
    await assert.rejects(hash('password', { ...SMALL, line }), BusyError);
    controllers[1].abort();
    await assert.rejects(calls[1], { name: 'AbortError', code: 'ABORT_ERR' });
    const next = hash('password', { ...SMALL, line });
    await assert.rejects(line.run(() => 0, { signal: AbortSignal.timeout(1000) }), BusyError);
    controllers[0].abort(new Error('enough'));
    await assert.rejects(calls[0], /enough/);
    assert.equal(await verify(await next, 'password'), true);
    await requireFree(line);
});

test('a signal that is not aborted stops no call that waits, whatever event it dispatches', async () => {
    const line = new Line({ concurrency: 1 });
    const { signal } = new AbortController();
    let release;
    const holding = line.run(() => new Promise((resolve) => {
        release = resolve;
    }));
    let isRunning = false;
    const waiting = line.run(() => {
        isRunning = true;
    }, { signal });
    signal.dispatchEvent(new Event('abort'));
    await sleep(10);
    assert.equal(isRunning, false);
    release();
    await Promise.all([holding, waiting]);
    assert.equal(isRunning, true);
});

test('calls with the same signal share one listener, which stays until the last has ended', async () => {
    const controller = new AbortController();
    const { signal } = controller;
    const countListeners = () => getEventListeners(signal, 'abort').length;
    const [line, other] = [new Line({ concurrency: 1 }), new Line({ concurrency: 1 })];
    const calls = [{}, { worker: false }, { line }].flatMap((running) =>
        Array.from({ length: 5 }, () => hash('password', { ...ENDLESS, ...running, signal })));
    await Promise.all([other.run(() => sleep(20)), other.run(() => 0, { signal })]);
    const listeners = countListeners();
    controller.abort();
    await Promise.all(calls.map((call) => assert.rejects(call, { name: 'AbortError' })));
    assert.deepEqual([listeners, countListeners()], [1, 0]);
});

test('many calls that wait for the same signal are stopped soon', async () => {
    const line = new Line({ concurrency: 1, waiting: 20000 });
    const controller = new AbortController();
    const holding = line.run(() => sleep(1));
    const calls = Array.from({ length: line.waiting }, () => line.run(() => 0, { signal: controller.signal }));
    const begun = performance.now();
    controller.abort();
    const took = performance.now() - begun;
    const outcomes = await Promise.allSettled(calls);
    await holding;
    assert.ok(outcomes.every(({ reason }) => reason?.name === 'AbortError'));
    assert.ok(took < 5000, `${took} milliseconds`);
});

test('the limits of a call that waits are those at its beginning', async () => {
    const line = new Line({ concurrency: 1 });
    let release;
    const holding = line.run(() => new Promise((resolve) => {
        release = resolve;
    }));
    const limits = { memoryCost: 1 };
    const waiting = [verify, verifyAndUpdate].map((call) => call(old, 'password', { ...SMALL, line, limits }));
    limits.memoryCost = 65536;
    release();
    const outcomes = await Promise.allSettled([...waiting, holding]);
    assert.deepEqual(outcomes.slice(0, 2).map(({ reason }) => reason?.name), ['TooCostly', 'TooCostly']);
});

test('verifyAndUpdate takes one place for both of its calls, and copies its inputs at once', async () => {
    const line = new Line({ concurrency: 1, waiting: 1 });
    const first = line.run(() => sleep(20));
    const [password, secret, associatedData] = ['password', 'pepper', 'user 7'].map((text) => Buffer.from(text));
    const keys = { secret: Buffer.from(secret), associatedData: Buffer.from(associatedData) };
    const stored = await hash(password, { ...SMALL, timeCost: 2, ...keys });
    const busy = [];
    const onProgress = (done) => busy.push(line.run(() => done).catch((error) => error.name));
    const call = verifyAndUpdate(stored, password, { ...SMALL, ...keys, onProgress, line });
    [password, keys.secret, keys.associatedData].forEach((bytes) => bytes.fill(0));
    await first;
    const { matches, update } = await call;
    assert.equal(matches, true);
    assert.equal(await verify(update, 'password', { secret, associatedData }), true);
    // One of these waits until the call has ended.
    assert.deepEqual((await Promise.all(busy)).filter((outcome) => outcome !== 'BusyError'), [1]);
    assert.equal(busy.length, 8 + 4);
});

test('verifyAndUpdate copies its inputs once, also if it renews the hash', async () => {
    const lengths = [1237, 1249, 1259];
    const [password, secret, associatedData] = lengths.map((length) => Buffer.alloc(length, 'text'));
    const keys = { secret, associatedData };
    const stored = await hash(password, { ...SMALL, timeCost: 2, ...keys });
    const { ArrayBuffer: Usual } = globalThis;
    for (const running of [{}, { native: false }, { native: false, worker: false }]) {
        const made = [];
        globalThis.ArrayBuffer = class extends Usual {
            constructor(length, ...more) {
                super(length, ...more);
                made.push(length);
            }
        };
        const { update } = await verifyAndUpdate(stored, password, { ...SMALL, ...keys, ...running })
            .finally(() => { globalThis.ArrayBuffer = Usual; });
        assert.equal(await verify(update, password, keys), true);
        assert.deepEqual(made.filter((length) => lengths.includes(length)).sort(), lengths, JSON.stringify(running));
    }
});

test('by default as many calls compute as fit into processors and memory, and 16 times as many wait', () => {
    const { availableParallelism, totalmem } = os;
    const { constrainedMemory } = process;
    const boundsOf = (gibibytes, constrained, options) => {
        os.totalmem = () => gibibytes * 2 ** 30;
        process.constrainedMemory = () => constrained * 2 ** 30;
        const { concurrency, waiting } = new Line(options);
        assert.equal(waiting, 16 * concurrency);
        return concurrency;
    };
    os.availableParallelism = () => 9;
    try {
        assert.deepEqual([boundsOf(1, 0), boundsOf(0.5, 0), boundsOf(1, 0.25), boundsOf(0.25, 2 ** 30)], [9, 6, 3, 3]);
        assert.deepEqual([boundsOf(1, 0, { parallelism: 4 }), boundsOf(64, 0, { parallelism: 10 })], [2, 1]);
        assert.deepEqual([boundsOf(1, 0, { memoryCost: 2 ** 18 }), boundsOf(1, 0, { memoryCost: 2 ** 20 })], [1, 1]);
        // The addon's memory is whole huge pages, here two.
        const isNative = process.env.PROVED_ARGON2_NATIVE !== '0';
        assert.equal(boundsOf(1 / 8, 0, { memoryCost: 2052 }), isNative ? 8 : 9);
    } finally {
        Object.assign(os, { availableParallelism, totalmem });
        Object.assign(process, { constrainedMemory });
    }
});

const OF_UNIT = '0::/system.slice/it.service\n';
const OF_CONTAINER = '0::/\n';
const QUOTAS = [
    // Version 2: a container with one processor, a unit of systemd with CPUQuota, and a quota of the slice above it.
    [OF_CONTAINER, { 'cpu.max': '100000 100000\n' }, 1],
    [OF_UNIT, { 'system.slice/it.service/cpu.max': '150000 50000\n' }, 3],
    [OF_UNIT, { 'system.slice/cpu.max': '200000 100000\n', 'system.slice/it.service/cpu.max': 'max 100000\n' }, 2],
    [OF_UNIT, { 'system.slice/other.service/cpu.max': '100000 100000\n' }, Infinity],
    ['0::/a:b\n', { 'a:b/cpu.max': '100000 100000\n' }, 1],
    // Parts of a processor, and no quota.
    [OF_CONTAINER, { 'cpu.max': '299999 100000\n' }, 2],
    [OF_CONTAINER, { 'cpu.max': '10000 100000\n' }, 0],
    [OF_CONTAINER, { 'cpu.max': 'max 100000\n' }, Infinity],
    // Version 1: a cgroup, a quota of the one above it, and a container, in which the path is the host's.
    ['4:memory:/x\n5:cpu,cpuacct:/a/b\n0::/\n',
        { 'cpu/a/b/cpu.cfs_quota_us': '300000\n', 'cpu/a/b/cpu.cfs_period_us': '100000\n' }, 3],
    ['1:cpu:/a/b\n', { 'cpu/a/cpu.cfs_quota_us': '100000\n', 'cpu/a/cpu.cfs_period_us': '50000\n',
        'cpu/a/b/cpu.cfs_quota_us': '-1\n', 'cpu/a/b/cpu.cfs_period_us': '100000\n' }, 2],
    ['1:cpu:/docker/1234\n', { 'cpu/cpu.cfs_quota_us': '100000\n', 'cpu/cpu.cfs_period_us': '100000\n' }, 1],
    ['4:memory:/a\n', { 'cpu/a/cpu.cfs_quota_us': '100000\n', 'cpu/a/cpu.cfs_period_us': '100000\n' }, Infinity],
    ['', {}, Infinity],
];

test('the quota of a process is the lowest of those of the cgroups above it', async () => {
    const { processorsOfQuota } = await import(new URL('quota.js', import.meta.resolve('proved-argon2')));
    for (const [own, quotas, expected] of QUOTAS) {
        const files = new Map(Object.entries(quotas).map(([name, text]) => [`/sys/fs/cgroup/${name}`, text]));
        const read = (file) => (file === '/proc/self/cgroup' ? own : files.get(file) ?? '');
        assert.equal(processorsOfQuota(read), expected, `${own} ${JSON.stringify(quotas)}`);
    }
});

for (const [quota, expected] of [['50000 100000', 1], ['300000 100000', 3], ['max 100000', 9]]) {
    test(`a process with the quota ${quota} computes that many hashes at a time by default`, async () => {
        const program = `import fs from 'node:fs';
            import os from 'node:os';
            const files = { '/proc/self/cgroup': '0::/', '/sys/fs/cgroup/cpu.max': '${quota}' };
            const { readFileSync } = fs;
            fs.readFileSync = (name, ...others) => files[name] ?? readFileSync(name, ...others);
            os.availableParallelism = () => 9;
            const { Line } = await import('proved-argon2');
            console.log(new Line({ memoryCost: 8 }).concurrency);`;
        const words = ['--input-type=module', '--eval', program];
        const { stdout } = await promisify(execFile)(process.execPath, words, { cwd: import.meta.dirname });
        assert.equal(Number(stdout), expected);
    });
}

test('wrong options of a line, and lines of another type, are rejected', async () => {
    for (const [options, expected] of [
        [{ concurrency: 0 }, RangeError], [{ waiting: -1 }, RangeError], [{ waiting: 0.5 }, RangeError],
        [{ concurrency: '2' }, TypeError], [{ wait: 1 }, TypeError], [{ memoryCost: null }, TypeError], [5, TypeError],
    ]) {
        assert.throws(() => new Line(options), expected);
    }
    for (const line of [null, {}, 5]) {
        await assert.rejects(hash('password', { line }), TypeError);
        await assert.rejects(verifyAndUpdate(old, 'password', { line }), TypeError);
    }
    await assert.rejects(new Line().run(() => 0, { signal: {} }), TypeError);
});
