// Callers pass passwords, views without bytes, forged objects, inherited options, and too few arguments.
import assert from 'node:assert/strict';
import { test } from 'node:test';
import * as argon2 from 'proved-argon2';

const ENCODED = '$argon2id$v=19$m=256,t=2,p=1$c29tZXNhbHQ$nf65EOgLrQMR/uIPnA4rEsF5h7TKyQwu9U1bMCHGi/4';
const SALT = new TextEncoder().encode('somesalt');
const CHEAP = { memoryCost: 256, salt: SALT };
const PASSWORD = new TextEncoder().encode('password');

function cut(length, viewOf) {
    const buffer = new ArrayBuffer(16, { maxByteLength: 16 });
    const view = viewOf(buffer);
    buffer.resize(length);
    return view;
}

function moved(value) {
    structuredClone(value, { transfer: [value.buffer ?? value] });
    return value;
}

/** Views and buffers that had bytes, and have none any more. */
const GONE = {
    'a view that is out of the bounds of a shrunk buffer': () => cut(12, (buffer) => new Uint8Array(buffer, 8, 8)),
    'a DataView of a shrunk buffer': () => cut(12, (buffer) => new DataView(buffer, 8, 8)),
    'a Float64Array of a shrunk buffer': () => cut(8, (buffer) => new Float64Array(buffer, 8, 1)),
    'a view of a transferred buffer': () => moved(Uint8Array.from(PASSWORD)),
    'a DataView of a transferred buffer': () => moved(new DataView(new ArrayBuffer(8))),
    'a transferred buffer': () => moved(new ArrayBuffer(8)),
};

/** Objects that say they are bytes. */
const FORGED = {
    'an object with the tag of a buffer': () => ({ [Symbol.toStringTag]: 'ArrayBuffer', length: 8, byteLength: 8 }),
    'an object with the tag of an array': () => ({ [Symbol.toStringTag]: 'Uint8Array', length: 8, byteLength: 8 }),
    'an object with the prototype of arrays': () => Object.create(Uint8Array.prototype),
    'an object with the prototype of buffers': () => Object.create(ArrayBuffer.prototype),
    'a proxy': () => new Proxy(Uint8Array.from(PASSWORD), {}),
    'an array': () => [...PASSWORD],
};

for (const [what, make] of Object.entries({ ...GONE, ...FORGED })) {
    test(`${what} is a TypeError that names the input`, async () => {
        const expected = { name: 'TypeError', message: /^'password' has to be a string or bytes: a typed array/ };
        await assert.rejects(argon2.hash(make(), CHEAP), expected);
        await assert.rejects(argon2.verify(ENCODED, make()), expected);
        for (const name of ['salt', 'secret', 'associatedData']) {
            const message = new RegExp(`^'${name}' has to be bytes: a typed array`);
            await assert.rejects(argon2.hash('password', { ...CHEAP, [name]: make() }), { name: 'TypeError', message });
        }
    });
}

test('each kind of view stands for the bytes that it shows', async () => {
    const buffer = new ArrayBuffer(24);
    new Uint8Array(buffer, 8).set(PASSWORD);
    const shared = new Uint8Array(new SharedArrayBuffer(8));
    shared.set(PASSWORD);
    const views = [
        new Uint8Array(buffer, 8, 8), new DataView(buffer, 8, 8), new Float64Array(buffer, 8, 1),
        new Int16Array(buffer, 8, 4), new BigUint64Array(buffer, 8, 1), buffer.slice(8, 16), shared,
    ];
    for (const view of views) {
        assert.equal(await argon2.verify(ENCODED, view), true, view.constructor.name);
    }
});

test('properties that a view overrides are not read', async () => {
    const view = Uint8Array.from(PASSWORD);
    for (const name of ['buffer', 'byteLength', 'byteOffset', 'length']) {
        Object.defineProperty(view, name, { value: 0 });
    }
    assert.equal(await argon2.verify(ENCODED, view), true);
});

/** The outcomes of the calls that a function makes while Object.prototype has properties named as options. */
async function outcomesWithInherited(call) {
    // There is no `signal`, which would end Node's own streams.
    const added = {
        memoryCost: 8, timeCost: 1, parallelism: 8, type: 0, version: 16, hashLength: 4, salt: SALT, limits: null,
        raw: true, secret: SALT, associatedData: 1, worker: 1, threads: 0, onProgress: 1, work: 1, line: 1,
        acceptUnpeppered: true, concurrency: 0, waiting: 0,
        encoded: ENCODED, code: 0, helpers: 1, failure: 'x', invitations: 1, isUnknown: true, found: SALT,
        nanoseconds: 1n, newSettings: [],
    };
    for (const [name, value] of Object.entries(added)) {
        Object.defineProperty(Object.prototype, name, { value, configurable: true, writable: true });
    }
    try {
        return await Promise.allSettled(call());
    } finally {
        Object.keys(added).forEach((name) => delete Object.prototype[name]);
    }
}

test('a property of Object.prototype is not an option', async () => {
    const costly = ENCODED.replace('t=2', 't=1000');
    const [plain, empty, verdict, refused, rehash] = await outcomesWithInherited(() => [
        argon2.hash('password'), argon2.hash('password', {}), argon2.verify(ENCODED, 'password'),
        argon2.verify(costly, 'password', { limits: {} }), argon2.needsRehash(ENCODED, { memoryCost: 256 }),
    ]);
    assert.match(plain.value, /^\$argon2id\$v=19\$m=19456,t=2,p=1\$[^$]{22}\$[^$]{43}$/);
    assert.match(empty.value, /^\$argon2id\$v=19\$m=19456,t=2,p=1\$[^$]{22}\$[^$]{43}$/);
    assert.notEqual(plain.value.split('$')[4], empty.value.split('$')[4]);
    assert.deepEqual([verdict.value, rehash.value], [true, false]);
    assert.equal(refused.reason?.name, 'TooCostly');
});

test('a property of Object.prototype is not an option of logins, peppers, lines and tune', async () => {
    const fitting = new argon2.Line();
    const stored = await argon2.hash('password', { memoryCost: 256 });
    const [login, unknown, unpeppered, line, tuned] = await outcomesWithInherited(() => [
        argon2.verifyAndUpdate(stored, 'password', { memoryCost: 256 }), argon2.verifyUnknown('password'),
        new argon2.PepperedHasher([['2026', SALT]]).verifyAndUpdate(null, ENCODED, 'password'),
        new argon2.Line(), argon2.tune(0),
    ]);
    assert.deepEqual(login.value, { matches: true, update: null });
    assert.equal(unknown.value, false);
    assert.equal(unpeppered.reason?.name, 'UnknownPepper');
    assert.deepEqual({ ...line.value }, { ...fitting });
    assert.match(tuned.reason?.message, /within 65536 KiB/);
    const aborted = Object.create({ signal: AbortSignal.abort() });
    assert.equal(await fitting.run(() => 1, aborted), 1);
});

test('an option is read once', async () => {
    const read = [];
    const options = {};
    for (const [name, value] of Object.entries({ memoryCost: 256, timeCost: 2, salt: SALT, secret: SALT, raw: true })) {
        Object.defineProperty(options, name, { enumerable: true, get: () => read.push(name) && value });
    }
    await argon2.hash('password', options);
    assert.deepEqual(read, ['memoryCost', 'timeCost', 'salt', 'secret', 'raw']);
});

test('an option that is undefined counts as missing, and options need no prototype', async () => {
    const missing = { secret: undefined, limits: undefined, timeCost: undefined };
    const bare = Object.assign(Object.create(null), CHEAP, missing);
    assert.equal(await argon2.hash('password', bare), ENCODED);
});

test('a string of node-argon2 that contains its associated data is verified with it', async () => {
    // libargon2 made it with the data "user 7". It is written as node-argon2 does.
    const encoded = process.env.WITH_DATA;
    assert.match(encoded, /,data=dXNlciA3\$/);
    const options = { associatedData: Buffer.from('user 7') };
    assert.equal(await argon2.verify(encoded, 'password'), true);
    assert.equal(await argon2.verify(encoded, 'password', options), true);
    assert.equal((await argon2.verifyAndUpdate(encoded, 'password')).matches, true);
    assert.equal(await argon2.verify(encoded, 'passwort'), false);
    assert.equal(await argon2.verify(encoded, 'password', { associatedData: Buffer.from('user 8') }), false);
    assert.equal(await argon2.verify(encoded.replace('dXNlciA3', 'dXNlciA4'), 'password'), false);
    assert.equal(await argon2.verify(encoded.replace(',data=dXNlciA3', ''), 'password', options), true);
    assert.equal(await argon2.needsRehash(encoded, { memoryCost: 256, timeCost: 2 }), false);
    assert.equal(await argon2.needsRehash(encoded), true);
});

test('a string whose associated data is no base64, or is in another place, is DecodingFail', async () => {
    const encoded = process.env.WITH_DATA;
    const changes = ['dXNlc', 'dXNlciB', 'dXNlciA3=', 'dXNlciA3,data=dXNlciA3', '', 'dXNl iA3', '-_'];
    for (const change of changes) {
        const changed = encoded.replace('dXNlciA3', change);
        const outcome = await argon2.verify(changed, 'password').catch((error) => error.name);
        assert.equal(outcome, 'DecodingFail', change);
    }
});

test('a password that is a string is encoded in UTF-8, and different strings never become the same bytes', async () => {
    const same = { salt: new Uint8Array(8), memoryCost: 8, timeCost: 1, raw: true };
    const text = 'pässwörd \u{1f511}\0';
    assert.deepEqual(await argon2.hash(text, same), await argon2.hash(new TextEncoder().encode(text), same));
    assert.deepEqual(await argon2.hash(text, same), await argon2.hash(new TextEncoder().encode(text).buffer, same));
    assert.notDeepEqual(await argon2.hash(text, same), await argon2.hash(text.slice(0, -1), same));
    // Strings that look alike may have different bytes; they are not normalized.
    for (const form of ['NFC', 'NFD', 'NFKC', 'NFKD']) {
        const normalized = 'pässwörd ﬁ \u212b'.normalize(form);
        const bytes = new TextEncoder().encode(normalized);
        assert.deepEqual(await argon2.hash(normalized, same), await argon2.hash(bytes, same), form);
    }
});

test('salts are 16 random bytes, new for each hash', async () => {
    const small = { memoryCost: 8, timeCost: 1 };
    const encoded = await Promise.all(Array.from({ length: 200 }, () => argon2.hash('password', small)));
    const salts = encoded.map((text) => Buffer.from(text.split('$')[4], 'base64'));
    assert.ok(salts.every((salt) => salt.length === 16));
    assert.equal(new Set(salts.map((salt) => salt.toString('hex'))).size, 200);
    // each bit is set in some salts, and not in others, except once in 2^192 runs
    for (let bit = 0; bit < 128; bit++) {
        const set = salts.filter((salt) => salt[bit >> 3] & (1 << (bit & 7))).length;
        assert.ok(set > 0 && set < 200, `bit ${bit} is set in ${set} of 200`);
    }
});
