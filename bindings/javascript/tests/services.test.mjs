// Beside hash and verify, a service renews hashes, rotates peppers, and chooses settings for this machine.
import assert from 'node:assert/strict';
import { readFileSync, writeFileSync } from 'node:fs';
import { test } from 'node:test';
import { inspect } from 'node:util';
import * as argon2 from 'proved-argon2';

const { PepperedHasher } = argon2;
const sources = import.meta.resolve('proved-argon2');
const { fittingCosts } = await import(new URL('tuning.js', sources));
const small = { memoryCost: 64, timeCost: 1, parallelism: 2 };
const bytes = (text) => new TextEncoder().encode(text);
const wrong = { matches: false, update: null };
const right = { matches: true, update: null };
const pepper = { secret: bytes('pepper') };

test('a hash of other settings is renewed for the right password alone', async () => {
    const options = { ...small, ...pepper };
    const old = await argon2.hash('password', { ...options, timeCost: 2 });
    assert.deepEqual(await argon2.verifyAndUpdate(old, 'Password', options), wrong);
    assert.deepEqual(await argon2.verifyAndUpdate(old, 'password', small), wrong);
    const { matches, update } = await argon2.verifyAndUpdate(old, 'password', options);
    assert.equal(matches, true);
    assert.equal(await argon2.verify(update, 'password', pepper), true);
    assert.equal(await argon2.needsRehash(update, small), false);
    const password = bytes('password');
    const called = argon2.verifyAndUpdate(update, password, options);
    password.fill(0);
    assert.deepEqual(await called, right);
});

test('if only the new hash fails, the password matches, and errors of the verification are rejected', async () => {
    const old = await argon2.hash('password', small);
    const failing = { ...small, timeCost: 0 };
    assert.deepEqual(await argon2.verifyAndUpdate(old, 'password', failing), right);
    await assert.rejects(argon2.verifyAndUpdate('x', 'password', small), argon2.DecodingFail);
    const limits = { memoryCost: 63 };
    await assert.rejects(argon2.verifyAndUpdate(old, 'password', { ...small, limits }), argon2.TooCostly);
    const signal = AbortSignal.abort();
    await assert.rejects(argon2.verifyAndUpdate(old, 'password', { ...small, signal }), argon2.AbortError);
});

test('invalid settings are an error, whether the password is right or not', async () => {
    const encoded = await argon2.hash('password', small);
    for (const [memoryCost, error] of [['65536', TypeError], [65536.5, RangeError]]) {
        for (const password of ['password', 'Password']) {
            await assert.rejects(argon2.verifyAndUpdate(encoded, password, { ...small, memoryCost }), error);
        }
    }
});

test('a rehash that the caller stops rejects with the reason, even if that is an error of this package', async () => {
    const encoded = await argon2.hash('password', small);
    const reason = new argon2.BusyError('shutdown');
    const controller = new AbortController();
    const inRehash = (stop) => {
        let begun = 0;
        return (done) => {
            begun += done === 1;
            if (begun === 2) {
                stop();
            }
        };
    };
    const throwReason = () => {
        throw reason;
    };
    const calls = [
        { onProgress: inRehash(throwReason) },
        { onProgress: inRehash(() => controller.abort(reason)), signal: controller.signal },
    ];
    for (const options of calls) {
        const stopped = argon2.verifyAndUpdate(encoded, 'password', { ...small, timeCost: 2, ...options });
        await assert.rejects(stopped, (error) => error === reason);
    }
});

test('new hashes have the newest pepper, and hashes of other peppers are renewed with it', async () => {
    const old = new PepperedHasher([['2025', bytes('old')]], small);
    const peppers = new Map([['2026', bytes('new')], ['2025', bytes('old')]]);
    const both = new PepperedHasher(peppers, { ...small, acceptUnpeppered: true });
    for (const [keyId, secret] of [['2025', bytes('old')], [null, undefined]]) {
        const stored = await argon2.hash('password', { ...small, secret });
        assert.deepEqual(await both.verifyAndUpdate(keyId, stored, 'Password'), wrong);
        const { matches, update } = await both.verifyAndUpdate(keyId, stored, 'password');
        assert.deepEqual([matches, update.keyId], [true, '2026']);
        assert.equal(await argon2.verify(update.encoded, 'password', { secret: bytes('new') }), true);
        assert.deepEqual(await both.verifyAndUpdate('2026', update.encoded, 'password'), right);
    }
    const { keyId, encoded } = await old.hash('password');
    assert.deepEqual([keyId, await old.verifyAndUpdate(keyId, encoded, 'password')], ['2025', right]);
    assert.deepEqual(await both.verifyAndUpdate('2026', encoded, 'password'), wrong);
    assert.deepEqual(await both.verifyAndUpdate(null, encoded, 'password'), wrong);
});

test('whoever writes to the store cannot choose a hash without a pepper', async () => {
    const peppers = [['2026', bytes('new')]];
    const chosen = await argon2.hash('open sesame', small);
    const expected = { name: 'UnknownPepper', code: 258 };
    for (const options of [small, { ...small, acceptUnpeppered: false }]) {
        const hasher = new PepperedHasher(peppers, options);
        await assert.rejects(hasher.verifyAndUpdate(null, chosen, 'open sesame'), expected);
        await assert.rejects(hasher.verifyAndUpdate('', chosen, 'open sesame'), expected);
        await assert.rejects(hasher.verifyAndUpdate(undefined, chosen, 'open sesame'), expected);
        await assert.rejects(hasher.verifyAndUpdate('2024', chosen, 'open sesame'), expected);
    }
    const migrating = new PepperedHasher(peppers, { ...small, acceptUnpeppered: true });
    assert.equal((await migrating.verifyAndUpdate(null, chosen, 'open sesame')).update.keyId, '2026');
    await assert.rejects(migrating.verifyAndUpdate(undefined, chosen, 'open sesame'), expected);
    assert.throws(() => new PepperedHasher(peppers, { acceptUnpeppered: 'yes' }), TypeError);
    const call = { acceptUnpeppered: true };
    await assert.rejects(migrating.verifyAndUpdate('2026', chosen, 'open sesame', call), TypeError);
});

test('a user who does not exist costs as much as one who does, and nobody logs in', async () => {
    const reportsOf = async (call) => {
        const reports = [];
        const outcome = await call({ ...small, timeCost: 3, onProgress: (...report) => reports.push(report) });
        return [outcome, reports];
    };
    const encoded = await argon2.hash('password', { ...small, timeCost: 3 });
    const [, expected] = await reportsOf((options) => argon2.verify(encoded, 'Password', options));
    assert.equal(expected.length, 12);
    const hasher = new PepperedHasher([['2026', bytes('new')]]);
    for (const password of ['password', '', bytes('Password')]) {
        assert.deepEqual(await reportsOf((options) => argon2.verifyUnknown(password, options)), [false, expected]);
        assert.deepEqual(await reportsOf((options) => hasher.verifyUnknown(password, options)), [false, expected]);
    }
    await assert.rejects(argon2.verifyUnknown('password', { ...small, timeCost: 0 }), argon2.TimeTooSmall);
    await assert.rejects(argon2.verifyUnknown('password', { ...small, type: 5 }), argon2.IncorrectType);
    const signal = AbortSignal.abort();
    await assert.rejects(argon2.verifyUnknown('password', { ...small, signal }), argon2.AbortError);
    await assert.rejects(argon2.verifyUnknown(undefined, small), TypeError);
    const key = bytes('password');
    const called = argon2.verifyUnknown(key, small);
    key.fill(0);
    assert.equal(await called, false);
});

test('a hash of the newest pepper is renewed where it has other settings', async () => {
    const peppers = [['2026', bytes('new')]];
    const { encoded } = await new PepperedHasher(peppers, { ...small, timeCost: 2 }).hash('password');
    const hasher = new PepperedHasher(peppers, small);
    assert.deepEqual(await hasher.verifyAndUpdate('2026', encoded, 'Password'), wrong);
    const { update } = await hasher.verifyAndUpdate('2026', encoded, 'password');
    assert.match(update.encoded, /m=64,t=1,p=2/);
    assert.equal(await argon2.verify(update.encoded, 'password', { secret: bytes('new') }), true);
});

test("an option of a call that is undefined does not replace the hasher's", async () => {
    const hasher = new PepperedHasher([['2026', pepper.secret]], { ...small, limits: { memoryCost: 32 } });
    const missing = { memoryCost: undefined, limits: undefined };
    const { keyId, encoded } = await hasher.hash('password', missing);
    assert.match(encoded, /m=64,t=1,p=2/);
    await assert.rejects(hasher.verifyAndUpdate(keyId, encoded, 'password', missing), { name: 'TooCostly' });
});

test('each call has options of its own, and no salt', async () => {
    const hasher = new PepperedHasher([['2026', bytes('new')]], small);
    const options = { associatedData: bytes('user 7'), salt: bytes('some salt'), raw: true };
    const hashes = [await hasher.hash('password', options), await hasher.hash('password', options)];
    assert.notEqual(hashes[0].encoded, hashes[1].encoded);
    assert.deepEqual(await hasher.verifyAndUpdate('2026', hashes[0].encoded, 'password', options), right);
    assert.deepEqual(await hasher.verifyAndUpdate('2026', hashes[0].encoded, 'password'), wrong);
    assert.match((await hasher.hash('password', { timeCost: 2 })).encoded, /m=64,t=2,p=2/);
});

test('wrong peppers are rejected, and keys are copied and not shown', async () => {
    const key = bytes('a key');
    const hasher = new PepperedHasher([['2026', key]], small);
    key.fill(0);
    const { encoded } = await hasher.hash('password');
    assert.equal(await argon2.verify(encoded, 'password', { secret: bytes('a key') }), true);
    const message = "There is no pepper with the ID '2024'";
    await assert.rejects(hasher.verifyAndUpdate('2024', encoded, 'password'), { name: 'UnknownPepper', message });
    await assert.rejects(hasher.verifyAndUpdate('2026', 'x', 'password'), argon2.DecodingFail);
    const peppers = [[], [['2026', bytes('')]], [[2026, key]], [['2026', bytes('a')], ['2026', bytes('b')]]];
    peppers.forEach((some) => assert.throws(() => new PepperedHasher(some), RangeError));
    for (const some of [{ 2026: key }, [['2026', 'a key']], undefined]) {
        assert.throws(() => new PepperedHasher(some), TypeError);
    }
    assert.deepEqual([inspect(hasher), JSON.stringify(hasher)].filter((text) => /a key|97/.test(text)), []);
});

test('a hash whose salt does not have 16 bytes is renewed', async () => {
    const old = await argon2.hash('password', { ...small, salt: new Uint8Array(8) });
    const { matches, update } = await argon2.verifyAndUpdate(old, 'password', small);
    assert.ok(matches && /\$[A-Za-z0-9+/]{22}\$[^$]+$/.test(update), update);
    assert.deepEqual(await argon2.verifyAndUpdate(update, 'password', small), right);
});

test('without random bytes a right password still matches, but is not hashed anew', async () => {
    const { getRandomValues } = globalThis.crypto;
    const old = await argon2.hash('password', { ...small, timeCost: 2 });
    globalThis.crypto.getRandomValues = () => {
        throw new Error('refused');
    };
    try {
        // (the library makes the salts of the addon's new hashes)
        assert.deepEqual(await argon2.verifyAndUpdate(old, 'password', { ...small, native: false }), right);
        await assert.rejects(argon2.hash('password', small), argon2.NoRandomBytes);
    } finally {
        globalThis.crypto.getRandomValues = getRandomValues;
    }
});

// The time and the memory within which the package itself searches, for WebAssembly, and what it finds, if anything. A
// hash takes 3 milliseconds for each MiB, times its passes to the power in between.
const TUNINGS = [
    [60000, 8192, 0, 8192, 10],
    [60000, 2097152, 0, 2097152, 2],
    [200, 65536, 1, 65536, 1],
    [400, 65536, 1, 65536, 2],
    [125, 65536, 1, 8192, 5],
    [150, 19456, 1, 19456, 2],
    [191, 65536, 0, 32768, 3],
    [700, 65536, 2, 65536, 1],
    [20, 7168, 0],
    [104, 7168, 1],
    [137, 47104, 1],
];

test('tune chooses as much memory as the time allows, and then passes', async () => {
    for (const [milliseconds, most, power, ...expected] of TUNINGS) {
        const found = fittingCosts(milliseconds, most, async (memory, passes) => 3 * memory / 1024 * passes ** power);
        if (expected.length > 0) {
            const { memory, passes } = await found;
            assert.deepEqual([memory, passes], expected, `${most} KiB in ${milliseconds} ms`);
        } else {
            const limits = `${most} KiB take at most ${milliseconds} milliseconds`;
            await assert.rejects(found, new RegExp(`^RangeError: .* ${limits}`));
        }
    }
});

test('tune measures hashes on this machine', async () => {
    const { parameters, milliseconds } = await argon2.tune(2000, { memoryCost: 16384, threads: 1 });
    assert.ok(milliseconds > 0 && milliseconds <= 2000);
    assert.ok(parameters.timeCost >= 3);
    const { timeCost, ...others } = parameters;
    assert.deepEqual(others, { type: 2, version: 19, memoryCost: 16384, parallelism: 1, hashLength: 32 });
    assert.match(await argon2.hash('password', parameters), new RegExp(`m=16384,t=${timeCost},p=1`));
    await assert.rejects(argon2.tune(0.001, { memoryCost: 7168 }), RangeError);
    await assert.rejects(argon2.tune('250'), TypeError);
});

test('a signal stops a search for settings, and a callback hears of its hashes', async () => {
    const controller = new AbortController();
    const onProgress = () => controller.abort();
    const running = { memoryCost: 65536, signal: controller.signal, onProgress };
    await assert.rejects(argon2.tune(10 ** 9, running), { name: 'AbortError' });
    const onFailure = () => assert.fail('enough');
    await assert.rejects(argon2.tune(10 ** 9, { memoryCost: 65536, onProgress: onFailure }), /enough/);
});

test('tune waits in a line before it measures, and not while it does', async () => {
    let turns = 0;
    class CountingLine extends argon2.Line {
        run(...values) {
            turns += 1;
            return super.run(...values);
        }
    }
    const tuned = await argon2.tune(60000, { memoryCost: 8192, line: new CountingLine({ concurrency: 1 }) });
    assert.equal(tuned.parameters.timeCost, 10);
    // The addon searches in one turn. Otherwise there is one for 5 passes and one for 10.
    assert.equal(turns, process.env.PROVED_ARGON2_NATIVE === '0' ? 2 : 1);
});

test('the example of the page runs', async () => {
    const page = readFileSync(new URL('../JAVASCRIPT.md', `file://${process.env.PAGE}/`), 'utf8');
    const [, example] = page.match(/(?<=^```js\n).*?(?=^```)/gms);
    const known = "const newKey = Uint8Array.of(1), oldKey = newKey, password = 'password', store = () => {};\n";
    const patient = example.replace('tune(250', 'tune(2500'); // (the machine may be slow)
    writeFileSync('page_example.mjs', `${known}${patient}export { keyId, line, matches, update };\n`);
    const { keyId, line, matches, update } = await import(new URL('page_example.mjs', import.meta.url));
    assert.equal(line.waiting, 32);
    assert.deepEqual({ keyId, matches, update }, { keyId: '2026', matches: true, update: null });
});
