// The outside vectors, and 800 random hashes of libargon2 (both from bindings/vectors), as bytes and as strings.
import assert from 'node:assert/strict';
import { randomInt } from 'node:crypto';
import os from 'node:os';
import { test } from 'node:test';
import * as argon2 from 'proved-argon2';
import { hashesOf, linesOf, VARIANTS } from './hashes.mjs';

const VECTORS = process.env.VECTORS;
const WORKERS = 8;
os.availableParallelism = () => WORKERS;
const base64 = (bytes) => bytes.toString('base64').replaceAll('=', '');

/** A call's result: its value, or `ERR` and its error's words. */
async function answerOf(call) {
    try {
        return await call;
    } catch (error) {
        assert.ok(error instanceof argon2.Argon2Error, String(error));
        return `ERR ${error.message}`;
    }
}

async function compareRaw({ line, settings, salt, inputs: { password, ...keys }, expected }, running) {
    const answer = await answerOf(argon2.hash(password, { ...settings, salt, ...keys, ...running, raw: true }));
    assert.equal(typeof answer === 'string' ? answer : Buffer.from(answer).toString('hex'), expected, line);
}

/** One bit changed, or new bytes if there are none. */
function changed(input) {
    const other = Uint8Array.from(input.length > 0 ? input : [0, 0]);
    other[randomInt(other.length)] ^= 1 << randomInt(8);
    return other;
}

/** The string is as others write it, and no other input or setting makes it. */
async function compareString({ line, settings, salt, inputs, expected }, running) {
    const { type, version, memoryCost, timeCost, parallelism } = settings;
    const { password, ...keys } = inputs;
    const encoded = `$${VARIANTS[type]}$v=${version}$m=${memoryCost},t=${timeCost},p=${parallelism}$${base64(salt)}$`
        + base64(Buffer.from(expected, 'hex'));
    assert.equal(await argon2.hash(password, { ...settings, salt, ...keys, ...running }), encoded);
    const verify = ({ password: given, ...others }) =>
        argon2.verify(encoded, given, { ...others, ...running, limits: null });
    assert.equal(await verify(inputs), true, line);
    assert.equal(await argon2.needsRehash(encoded, settings), false, line);
    for (const [name, input] of Object.entries(inputs)) {
        assert.equal(await verify({ ...inputs, [name]: changed(input) }), false, `${line} ${name}`);
    }
    const changes = { type: (type + 1) % 3, version: 0x23 - version };
    for (const [name, number] of Object.entries(settings)) {
        const others = { ...settings, [name]: changes[name] ?? number + 1 };
        assert.equal(await argon2.needsRehash(encoded, others), true, `${line} ${name}`);
    }
}

const WAYS = {
    'by one worker': { threads: 1 }, 'by a worker for each lane': {}, 'in the thread of the caller': { worker: false },
};

for (const [way, running] of Object.entries(WAYS)) {
    test(`the hashes of other implementations, ${way}`, async () => {
        for (const one of hashesOf(`${VECTORS}/raw.txt`, 240)) {
            await compareRaw(one, running);
        }
    });
}

test('800 random hashes of libargon2, computed by 1 to 8 workers, and the strings of some', async () => {
    for (const [i, one] of hashesOf(process.env.RANDOM_HASHES, 800).entries()) {
        const compare = i % 10 === 0 ? compareString : compareRaw;
        await compare(one, { threads: 1 + i % WORKERS, worker: i % 20 !== 0 });
    }
});

test('the strings of other implementations', async () => {
    const lines = linesOf(`${VECTORS}/texts.txt`);
    assert.ok(lines.length >= 147);
    for (const line of lines) {
        const [encoded, expected] = line.split('\t');
        assert.equal(String(await answerOf(argon2.verify(encoded, 'password', { limits: null }))), expected, encoded);
    }
});
