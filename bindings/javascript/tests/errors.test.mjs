// Each error by its name, before a worker is started or memory is taken.
import assert from 'node:assert/strict';
import { writeFileSync } from 'node:fs';
import { join } from 'node:path';
import { test } from 'node:test';
import { inspect } from 'node:util';
import { countWorkers, outputOf } from './watching.mjs';
import * as argon2 from 'proved-argon2';

const MOST = 0xffffffff;
const ENCODED = '$argon2id$v=19$m=256,t=2,p=1$c29tZXNhbHQ$nf65EOgLrQMR/uIPnA4rEsF5h7TKyQwu9U1bMCHGi/4';

const stringOf = (memory, time, lanes) =>
    `$argon2id$v=19$m=${memory},t=${time},p=${lanes}$c29tZXNhbHQ$nf65EOgLrQMR/uIPnA4rEsF5h7TKyQwu9U1bMCHGi/4`;

/** The error of a hash with these options. */
const HASHING = [
    ['SaltTooShort', { salt: new Uint8Array(7) }],
    ['LanesTooMany', { parallelism: 0x1000000, memoryCost: MOST }],
    ['IncorrectType', { type: 3 }],
    ['IncorrectVersion', { version: 18 }],
    ['RangeError', { timeCost: 1.5 }],
    ['RangeError', { memoryCost: -1 }],
    ['RangeError', { hashLength: 2 ** 32 }],
    ['RangeError', { parallelism: NaN }],
    ['RangeError', { threads: -1 }],
    ['TypeError', { timeCost: '2' }],
    ['TypeError', { type: 'argon2id' }],
    ['TypeError', { memoryCost: 256n }],
    ['TypeError', { hashLength: null }],
    ['TypeError', { salt: 'some salt of mine' }],
    ['TypeError', { salt: [1, 2, 3, 4, 5, 6, 7, 8] }],
    ['TypeError', { secret: 'pepper' }],
    ['TypeError', { secret: null }],
    ['TypeError', { associatedData: 5 }],
    ['TypeError', { onProgress: 5 }],
    ['TypeError', { signal: {} }],
    ['TypeError', { worker: 'no' }],
    ['TypeError', { native: 0 }],
    ['TypeError', { raw: 1 }],
    ['TypeError', { memorycost: 65536 }],
    ['TypeError', { threads: 0 }],
    ['TypeError', null],
    ['TypeError', 5],
    ['TypeError', []],
    ['TypeError', new Uint8Array()],
];

/** The error of a verification with this string and these options. */
const VERIFYING = [
    ['DecodingFail', ''],
    ['DecodingFail', '$2b$12$R9h/cIPz0gi.URNNX3kh2OPST9/PgBkqquzi.Ss7KIUgO2t0jWMUW'],
    ['DecodingFail', `${ENCODED}\0`],
    ['DecodingFail', `${ENCODED}é`],
    ['DecodingFail', ENCODED.slice(1), { limits: { memoryCost: 255 } }],
    ['TooCostly', ENCODED, { limits: { memoryCost: 255 } }],
    ['TooCostly', ENCODED, { limits: { timeCost: 1 } }],
    ['TooCostly', stringOf(256, 1, 2), { limits: { parallelism: 1 } }],
    ['TooCostly', ENCODED, { limits: { work: 511 } }],
    ['TooCostly', stringOf(argon2.defaultLimits.memoryCost + 1, 1, 1)],
    ['LanesTooMany', stringOf(MOST, MOST, 0x1000000), { limits: null }],
    ['TypeError', 5],
    ['TypeError', new TextEncoder().encode(ENCODED)],
    ['TypeError', ENCODED, []],
    ['TypeError', ENCODED, { limits: 5 }],
    ['TypeError', ENCODED, { limits: [] }],
    ['TypeError', ENCODED, { limits: { memory: 5 } }],
    ['TypeError', ENCODED, { limits: { memoryCost: '256' } }],
    ['RangeError', ENCODED, { limits: { work: -1 } }],
    ['RangeError', ENCODED, { limits: { work: 2 ** 53 } }],
    ['DecodingFail', '', { limits: { work: 2 ** 53 - 1 } }],
];

const REHASHING = [
    ['DecodingFail', '$argon2id$'],
    ['IncorrectType', ENCODED, { type: 7 }],
    ['IncorrectVersion', ENCODED, { version: 0 }],
    ['TypeError', null],
    ['TypeError', ENCODED, { timeCost: '2' }],
];

const NO_PASSWORDS = [5, null, undefined, {}, ['password'], true, 'half a pair \ud800', '\udc00']
    .map((value) => ['TypeError', value]);

/** Checks that a call is rejected by an error of this name. */
async function rejects(name, call, what) {
    const error = await call().then((value) => assert.fail(`${what} gave ${value}`), (reason) => reason);
    assert.equal(error.name, name, `${what}: ${error.stack}`);
    if (name in argon2) {
        assert.ok(error instanceof argon2[name] && error instanceof argon2.Argon2Error);
        assert.equal(error.code, argon2[name].prototype.code);
        assert.match(error.message, /^[A-Z][\w ]+\w$/);
    }
}

const CALLS = {
    hash: [HASHING, (options) => argon2.hash('password', options)],
    verify: [VERIFYING, (encoded, options) => argon2.verify(encoded, 'password', options)],
    needsRehash: [REHASHING, argon2.needsRehash],
    'hash without a password': [NO_PASSWORDS, argon2.hash],
    'verify without a password': [NO_PASSWORDS, (value) => argon2.verify(ENCODED, value)],
};

for (const [what, [cases, call]] of Object.entries(CALLS)) {
    test(`each error of ${what} has its name, and comes before a worker`, async () => {
        const started = countWorkers();
        for (const [name, ...values] of cases) {
            await rejects(name, () => call(...values), inspect(values));
        }
        assert.equal(started(), 0);
    });
}

test('memory that the engine denies is OutOfMemory, and the next call works', async () => {
    const most = { memoryCost: MOST, timeCost: 1 };
    for (const running of [{ threads: 1 }, { worker: false }, { parallelism: 2 }]) {
        await rejects('OutOfMemory', () => argon2.hash('password', { ...most, ...running }), JSON.stringify(running));
    }
    await rejects('OutOfMemory', () => argon2.verify(stringOf(MOST, 1, 1), 'password', { limits: null }), 'a string');
    assert.equal(await argon2.verify(ENCODED, 'password'), true);
});

test('in the thread of the caller a denied memory.grow is OutOfMemory', async () => {
    const { grow } = WebAssembly.Memory.prototype;
    WebAssembly.Memory.prototype.grow = () => {
        throw new RangeError('refused');
    };
    try {
        await rejects('OutOfMemory', () => argon2.hash('password', { worker: false }), 'in place');
    } finally {
        WebAssembly.Memory.prototype.grow = grow;
    }
});

test('a call whose signal is already aborted rejects with the reason, and starts no worker', async () => {
    const started = countWorkers();
    const reason = new Error('no more');
    await assert.rejects(argon2.hash('password', { signal: AbortSignal.abort(reason) }), (error) => error === reason);
    const signal = AbortSignal.abort();
    await assert.rejects(argon2.verify(ENCODED, 'password', { signal }), (error) => {
        assert.ok(error instanceof argon2.AbortError);
        assert.deepEqual([error.name, error.code, error.cause], ['AbortError', 'ABORT_ERR', signal.reason]);
        return true;
    });
    assert.equal(started(), 0);
});

/** Makes calls, and returns the bytes of all buffers that the package allocates meanwhile. */
async function bytesOfBuffers(callWith) {
    const { ArrayBuffer: Buffers } = globalThis;
    const made = [];
    globalThis.ArrayBuffer = class extends Buffers {
        constructor(length) {
            super(length);
            made.push(new Uint8Array(this));
        }
    };
    try {
        await callWith(made);
    } finally {
        globalThis.ArrayBuffer = Buffers;
    }
    return made;
}

/** A buffer that was moved to a worker has no bytes here. */
const isZero = (bytes) => bytes.length === 0 || bytes.every((byte) => byte === 0);
const SECRET = Uint8Array.of(1, 2, 3);

test('the inputs of a call that is stopped before it runs are overwritten', async () => {
    const password = 'a password';
    const made = await bytesOfBuffers(async (seen) => {
        const calls = [argon2.hash, (...values) => argon2.verify(ENCODED, ...values)];
        for (const call of calls) {
            const controller = new AbortController();
            const stopped = call(password, { secret: SECRET, signal: controller.signal });
            assert.ok(seen.some((bytes) => bytes.includes(0x70)), 'no copy was seen');
            controller.abort();
            await assert.rejects(stopped, { name: 'AbortError' });
        }
    });
    const inputs = made.filter((bytes) => bytes.length === 3 || bytes.length === 3 * password.length);
    assert.equal(inputs.length, 4);
    assert.ok(inputs.every(isZero));
});

test('if an input is rejected, the copies of the others are overwritten', async () => {
    const salt = new Uint8Array(8);
    const made = await bytesOfBuffers(async () => {
        for (const [password, options] of [['\ud800', {}], [5, {}], ['password', { associatedData: 'text' }]]) {
            const all = { secret: SECRET, ...options };
            await assert.rejects(argon2.hash(password, { ...all, salt }), TypeError);
            await assert.rejects(argon2.verify(ENCODED, password, all), TypeError);
            await assert.rejects(argon2.verifyAndUpdate(ENCODED, password, all), TypeError);
            await assert.rejects(argon2.verifyUnknown(password, all), TypeError);
        }
    });
    assert.equal(made.filter((bytes) => bytes.length === SECRET.length).length, 12);
    assert.ok(made.every(isZero));
});

test('the tag of a call that is stopped after its last slice is overwritten', async () => {
    const salt = new Uint8Array(8);
    for (const worker of [true, false]) {
        const made = await bytesOfBuffers(async () => {
            const onProgress = (done, all) => {
                assert.ok(done < all, 'the last slice');
            };
            const options = { memoryCost: 256, raw: true, salt, worker, onProgress };
            await assert.rejects(argon2.hash('', options), { message: 'the last slice' });
        });
        assert.ok(made.every(isZero), `worker: ${worker}`);
    }
});

test('the error of a value that is no bytes does not contain the value', async () => {
    const calls = [
        () => argon2.hash(12345678), () => argon2.hash('password', { secret: 'MY-PEPPER' }),
        async () => new argon2.PepperedHasher([['2026', 'MY-PEPPER']]),
    ];
    for (const call of calls) {
        await assert.rejects(call, (error) => error instanceof TypeError && !/12345678|MY-PEPPER/.test(inspect(error)));
    }
});

const POOR = `data:text/javascript,WebAssembly.Memory = class { constructor() { throw new RangeError('denied'); } }`;
const POOR_INSTANCES = `data:text/javascript,WebAssembly.instantiate = async () => { throw new RangeError('denied'); }`;
const POOR_WORKERS = `data:text/javascript,import threads from 'node:worker_threads';
    threads.Worker = class extends threads.Worker {
        constructor(file, options) { super(file, { ...options, execArgv: ['--import', ${JSON.stringify(POOR)}] }); }
    };`;
const POOR_BYTES = `data:text/javascript,globalThis.ArrayBuffer = new Proxy(ArrayBuffer, {
        construct(Buffers, [length]) { if (length === 77) throw new RangeError('denied'); return new Buffers(length); }
    });`;
const UNLOADABLE = 'data:text/javascript,process.dlopen = () => { globalThis.loads = true; }';
const OLD = 'data:text/javascript,delete process.getBuiltinModule; delete globalThis.crypto';
const { allowedNodeEnvironmentFlags, arch, platform, versions } = process;
const PERMISSION = ['--permission', '--experimental-permission'].find((flag) => allowedNodeEnvironmentFlags.has(flag));
/** Calls in processes with some flags, and with variables. */
const PROCESSES = [
    ['an engine without WebAssembly is Unsupported', ['--jitless'], { PROVED_ARGON2_NATIVE: '0' },
        "hash('password')", 'Unsupported: This engine has no WebAssembly'],
    ['a Node that cannot load its modules without an import is Unsupported', ['--import', OLD], {},
        "Promise.any([hash, verify, needsRehash].map((call) => call('', ''))).catch(({ errors }) => errors.join())",
        Array(3).fill(`Unsupported: Node ${versions.node} is too old: this needs Node 20.19, 22.12 or 24`).join()],
    ['an engine without the addon is Unsupported for a call with `native: true`', [], { PROVED_ARGON2_NATIVE: '0' },
        "hash('password', { native: true })", `Unsupported: There is no addon for ${platform} on ${arch}, `
        + "where WebAssembly computes without 'native': PROVED_ARGON2_NATIVE is 0"],
    ['if the engine denies the memory of quick calls, the error is OutOfMemory', ['--import', POOR],
        { PROVED_ARGON2_NATIVE: '0' }, "needsRehash(ENCODED)", 'OutOfMemory: Out of memory'],
    ['if the engine denies the memory of an instance, the error is OutOfMemory', ['--import', POOR_INSTANCES],
        { PROVED_ARGON2_NATIVE: '0' }, "needsRehash(ENCODED)", 'OutOfMemory: Out of memory'],
    ['if the engine denies the memory of a worker, the error is OutOfMemory', ['--import', POOR_WORKERS], {},
        "hash('password', { native: false, parallelism: 2 })", 'OutOfMemory: Out of memory'],
    ['if the engine denies the memory of a tag, the error is OutOfMemory', ['--import', POOR_BYTES], {},
        "hash('password', { worker: false, hashLength: 77 })", 'OutOfMemory: Out of memory'],
    ['if the engine denies the memory of a copy of an input, the error is OutOfMemory', ['--import', POOR_BYTES], {},
        "verify(ENCODED, new Uint8Array(77))", 'OutOfMemory: Out of memory'],
    ['a call with `native: false` does not load the addon', ['--import', UNLOADABLE], {},
        `verifyAndUpdate(ENCODED, 'password', { native: false, memoryCost: 64 }).then(({ matches, update }) =>
            [matches, update.includes('m=64'), globalThis.loads].join())`, 'true,true,'],
    ['where Node denies workers, the caller computes', [PERMISSION, `--allow-fs-read=${import.meta.dirname}/*`], {},
        `hash('password', { memoryCost: 64, parallelism: 2 }).then(async (encoded) =>
            [process.permission.has('worker'), await verify(encoded, 'password')].join())`, 'false,true'],
];

for (const [what, flags, variables, call, expected] of PROCESSES) {
    test(what, async () => {
        const program = join(import.meta.dirname, 'flagged.mjs');
        writeFileSync(program, `import { hash, needsRehash, verify, verifyAndUpdate } from 'proved-argon2';
            const ENCODED = '${ENCODED}';
            console.log(await ${call}.catch(String));`);
        assert.equal((await outputOf([...flags, program], variables)).trim(), expected);
    });
}
