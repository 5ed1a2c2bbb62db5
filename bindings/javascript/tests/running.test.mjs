// Calls run by the addon and by workers. They tell their progress, end on demand, and leave nothing in memory.
import assert from 'node:assert/strict';
import { spawn } from 'node:child_process';
import { getEventListeners, once } from 'node:events';
import { readdirSync } from 'node:fs';
import { createRequire } from 'node:module';
import os, { availableParallelism } from 'node:os';
import { test } from 'node:test';
import { setTimeout as sleep } from 'node:timers/promises';
import { Worker } from 'node:worker_threads';
import { countWorkers, letStay, look, lookIntoWorkers, outputOf, workers } from './watching.mjs';
import * as argon2 from 'proved-argon2';

const NATIVE = { memoryCost: 1024, timeCost: 1, salt: new Uint8Array(16), raw: true };
/** Takes a minute or so. */
const ENDLESS = '{ memoryCost: 65536, timeCost: 1000, parallelism: 2, native: true, onProgress }';
const SOON = 10000;

// This comes before the others, whose threads stay.
test('a thread computes one hash after another', async () => {
    const threads = () => new Set(readdirSync('/proc/self/task'));
    const before = threads();
    await argon2.hash('password', NATIVE);
    const added = [...threads()].filter((thread) => !before.has(thread));
    for (let call = 0; call < 20; call++) {
        await argon2.hash('password', NATIVE);
    }
    const after = threads();
    assert.ok(added.length > 0 && added.every((thread) => after.has(thread)));
    assert.ok(after.size < before.size + added.length + 3);
});

test('by default the addon computes, without a worker, and with `native: false` WebAssembly does', async () => {
    const started = countWorkers();
    const tag = await argon2.hash('password', NATIVE);
    assert.deepEqual(await argon2.hash('password', { ...NATIVE, native: true }), tag);
    assert.equal(started(), 0);
    assert.deepEqual(await argon2.hash('password', { ...NATIVE, native: false }), tag);
    assert.equal(started(), 1);
});

test('the addon also computes if the package is loaded by require', async () => {
    const required = createRequire(import.meta.url)('proved-argon2');
    const tag = await required.hash('password', { ...NATIVE, native: true });
    assert.deepEqual(tag, await argon2.hash('password', NATIVE));
});

/** The exit status of a process that runs some lines in the middle of a hash, and then has to end soon. */
async function endOf(lines) {
    const program = `import { hash } from 'proved-argon2';
        const onProgress = (done) => done === 2 && end();
        function end() { ${lines} }
        hash('password', ${ENDLESS}).catch(() => process.exit(9));`;
    const child = spawn(process.execPath, ['--input-type=module', '--eval', program],
        { cwd: import.meta.dirname, stdio: 'ignore' });
    const began = performance.now();
    const [status, signal] = await once(child, 'exit');
    assert.ok(performance.now() - began < SOON, 'it took long');
    return signal ?? status;
}

test('a process ends in the middle of a hash', async () => {
    assert.equal(await endOf('process.exit(7);'), 7);
    assert.equal(await endOf("setTimeout(() => { throw new Error('thrown on purpose'); });"), 1);
});

test('when a worker of the program ends in the middle of a hash, the addon still works in other threads', async () => {
    for (let round = 0; round < 3; round++) {
        const program = `const { parentPort } = require('node:worker_threads');
            const onProgress = (done) => done === 2 && parentPort.postMessage(done);
            require('proved-argon2').hash('password', ${ENDLESS});`;
        const worker = new Worker(program, { eval: true });
        await once(worker, 'message');
        const began = performance.now();
        await worker.terminate();
        assert.ok(performance.now() - began < SOON, 'it took long');
        assert.equal((await argon2.hash('password', NATIVE)).length, 32);
    }
});

// ---- by workers, by the addon, and in the caller's thread

const SMALL = { memoryCost: 1024, timeCost: 3, parallelism: 4, salt: new Uint8Array(16), raw: true, native: false };
const RUNNINGS = {
    'by one worker': { threads: 1 }, 'by four workers': { threads: 4 },
    'by one thread': { native: true, threads: 1 }, 'by four threads': { native: true, threads: 4 },
    'in the thread of the caller': { worker: false },
};

const hexOf = (bytes) => Buffer.from(bytes).toString('hex');

async function assertNothingHeld() {
    const found = [look(), ...await lookIntoWorkers()];
    assert.ok(found.reduce((sum, thread) => sum + thread.bytes, 0) > 1024 * 1024, 'no memory was seen');
    assert.deepEqual(found.filter((thread) => thread.held > 0), []);
}

for (const [name, running] of Object.entries(RUNNINGS)) {
    test(`progress is reported slice by slice to the end, ${name}`, async () => {
        const reports = [];
        await argon2.hash('password', { ...SMALL, ...running, onProgress: (...report) => reports.push(report) });
        assert.deepEqual(reports, Array.from({ length: 12 }, (_, i) => [i + 1, 12]));
    });

    test(`a progress callback that throws stops the call, ${name}`, async () => {
        const reason = new Error('enough');
        let reported = 0;
        const onProgress = () => {
            reported += 1;
            if (reported === 5) {
                throw reason;
            }
        };
        const stopped = argon2.hash('password', { ...SMALL, ...running, onProgress });
        await assert.rejects(stopped, (error) => error === reason);
        assert.equal(reported, 5);
        await assertNothingHeld();
    });

    test(`a signal stops a hash, memory is overwritten, and the workers still work, ${name}`, async () => {
        await argon2.hash('password', { ...SMALL, ...running });
        const expected = hexOf(await argon2.hash('password', { ...SMALL, worker: false }));
        const started = countWorkers();
        const alive = workers.length;
        const controller = new AbortController();
        let reported = 0;
        const onProgress = (done) => {
            reported = done;
            if (done === 3) {
                controller.abort();
            }
        };
        const large = { ...SMALL, ...running, memoryCost: 16384 };
        const call = argon2.hash('password', { ...large, onProgress, signal: controller.signal });
        await assert.rejects(call, { name: 'AbortError' });
        assert.equal(reported, 3);
        await assertNothingHeld();
        assert.equal(workers.length, alive);
        assert.equal(hexOf(await argon2.hash('password', { ...SMALL, ...running })), expected);
        assert.equal(started(), 0);
        await assertNothingHeld();
    });
}

test('the tests see the blocks of a hash that computes', async () => {
    let held = 0;
    const onProgress = () => {
        held = Math.max(held, look().held);
    };
    await argon2.hash('password', { ...SMALL, worker: false, onProgress });
    assert.ok(held > 1000 * 1024, `${held} bytes`);
    await assertNothingHeld();
});

test('a long password needs no memory in this thread, and a memory that a long salt enlarged is dropped', async () => {
    const before = look().bytes;
    await argon2.hash('x'.repeat(2 ** 21), SMALL);
    assert.equal(look().bytes, before);
    await argon2.hash('password', { ...SMALL, raw: false, salt: new Uint8Array(2 ** 20) });
    const grown = look().bytes;
    await argon2.hash('password', SMALL);
    const small = look().bytes;
    assert.ok(small > grown && grown > before, 'the large one was used again');
    await argon2.hash('password', SMALL);
    assert.equal(look().bytes, small);
});

test('a signal stops a verification too', async () => {
    const encoded = await argon2.hash('password', { ...SMALL, raw: false });
    const costly = encoded.replace('t=3', 't=1000000');
    for (const native of [true, false]) {
        const signal = AbortSignal.timeout(5);
        const stopped = argon2.verify(costly, 'password', { limits: null, signal, native });
        await assert.rejects(stopped, { name: 'TimeoutError' });
        assert.equal(await argon2.verify(encoded, 'password', { native }), true);
    }
    await assertNothingHeld();
});

test('after a call its signal has no listener, and aborting it does nothing', async () => {
    const controller = new AbortController();
    await argon2.hash('password', { ...SMALL, signal: controller.signal });
    assert.deepEqual(getEventListeners(controller.signal, 'abort'), []);
    controller.abort();
    assert.equal(await argon2.verify(await argon2.hash('password', { ...SMALL, raw: false }), 'password'), true);
});

/** Workers compute in a process, or the addon's threads do. Node has a few of its own, which come and go. */
const COMPUTING = {
    workers: [false, () => workers.length, availableParallelism()],
    threads: [true, () => readdirSync('/proc/self/task').length, 2 * availableParallelism()],
};

for (const [what, [native, count, limit]] of Object.entries(COMPUTING)) {
    test(`many calls at the same time are right, and take no more ${what} than there are processors`, async () => {
        const before = native ? count() : 0;
        let most = 0;
        const onProgress = () => {
            most = Math.max(most, count() - before);
        };
        const settings = Array.from({ length: 40 }, (_, i) =>
            ({ ...SMALL, memoryCost: native ? 8192 : 1024, parallelism: 1 + i % 5, native }));
        const all = await Promise.all(settings.map((options, i) => argon2.hash(`${i}`, { ...options, onProgress })));
        assert.ok(most > 1 && most <= limit, `${most} ${what}`);
        for (const [i, tag] of all.entries()) {
            const other = native ? { native: false } : { worker: false };
            assert.deepEqual(tag, await argon2.hash(`${i}`, { ...settings[i], ...other }), `${i}`);
        }
        await assertNothingHeld();
    });

    test(`a call that waits for one of the ${what} can be stopped, and the next has its turn`, async () => {
        const controller = new AbortController();
        const large = { ...SMALL, memoryCost: 16384, native };
        const others = Array.from({ length: availableParallelism() }, () => argon2.hash('password', large));
        const waiting = argon2.hash('password', { ...SMALL, native, signal: controller.signal });
        const next = argon2.hash('password', { ...SMALL, native });
        await sleep(1);
        controller.abort();
        await assert.rejects(waiting, { name: 'AbortError' });
        await Promise.all([...others, next]);
    });
}

test('a call that is stopped as its turn comes does not take the turn of another', async () => {
    const { Places, Progress } = await import(new URL('turns.js', import.meta.resolve('proved-argon2')));
    const places = new Places(() => 2);
    const controller = new AbortController();
    assert.equal(places.take(3), 2);
    const first = places.wait(new Progress(undefined, controller.signal));
    const second = places.takeInTurn(3, new Progress());
    places.leave(1);
    controller.abort();
    assert.deepEqual([await first, places.waiting], [1, 1]);
    places.leave(1);
    assert.deepEqual([await second, places.waiting, places.take(1)], [1, 0, 0]);
    places.leave(2);
    assert.equal(await places.takeInTurn(3, new Progress()), 2);
});

test('a worker that fails is WorkerRefused, and the next call has another', async () => {
    const large = { ...SMALL, memoryCost: 65536, timeCost: 20 };
    for (const running of [{ threads: 1 }, { threads: 4 }]) {
        const call = argon2.hash('password', { ...large, ...running });
        const rejected = assert.rejects(call, (error) => error instanceof argon2.WorkerRefused);
        await sleep(50);
        await Promise.all(workers.map((worker) => worker.terminate()));
        await rejected;
        assert.equal((await argon2.hash('password', { ...SMALL, ...running })).length, 32);
    }
});

test('inputs are copied when the call is made, and are not changed', async () => {
    const options = { ...SMALL, secret: Uint8Array.of(1, 2, 3), associatedData: Uint8Array.of(4) };
    const password = new TextEncoder().encode('password');
    const expected = await argon2.hash('password', options);
    const call = argon2.hash(password, options);
    assert.deepEqual([...password], [...Buffer.from('password')]);
    password.fill(0);
    options.secret.fill(0);
    assert.deepEqual(await call, expected);
});

test('an idle worker does not keep a process alive', async () => {
    const program = `import { workers } from './watching.mjs';
        import { hash, verify } from 'proved-argon2';
        process.once('beforeExit', () => console.log(workers.length));
        console.log(await verify(await hash('password', { memoryCost: 64, native: false }), 'password'));`;
    assert.equal(await outputOf(['--input-type=module', '--eval', program]), 'true\n1\n');
});

test('if a port loses a memory, it is passed on by the thread of the caller', async () => {
    const words = ['--import', './watching.mjs', '--test-reporter=tap',
        '--test-name-pattern=by a worker for each lane', 'vectors.test.mjs'];
    const variables = { NODE_TEST_CONTEXT: undefined, PROVED_ARGON2_NATIVE: '0', LOSES_MEMORIES: '1' };
    assert.match(await outputOf(words, variables), /^# pass 1$/m);
});

test('idle workers end', async () => {
    letStay(10);
    const alone = { ...SMALL, threads: 1 };
    await Promise.all(Array.from({ length: availableParallelism() }, () => argon2.hash('password', alone)));
    assert.ok(workers.length > 0);
    while (workers.length > 0) {
        await sleep(10);
    }
    await argon2.hash('password', SMALL);
});

test('at most 16 workers verify a string, and more may hash a password', async () => {
    while (workers.length > 0) {
        await sleep(10);
    }
    letStay(3600000);
    const started = countWorkers();
    const { availableParallelism: processors } = os;
    os.availableParallelism = () => 20;
    try {
        const encoded = '$argon2id$v=19$m=256,t=2,p=20$c29tZXNhbHQ$zuWsx5SW6qv+2xEgzAPJ2yaCCn9xi6Aq48Uvm9in6ao';
        assert.equal(await argon2.verify(encoded, 'password', { limits: { parallelism: 20 }, native: false }), true);
        assert.equal(started(), 16);
        await argon2.hash('password', { memoryCost: 256, parallelism: 18, native: false });
        assert.equal(started(), 18);
    } finally {
        os.availableParallelism = processors;
    }
});
