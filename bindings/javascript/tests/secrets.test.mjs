// Searches the memory of a process for passwords and secrets that it passed as bytes and then overwrote, and for tags
// of encoded hashes. The process prints passwords and secrets, changed by a mask, and encoded hashes. Then it waits.
import assert from 'node:assert/strict';
import { spawn } from 'node:child_process';
import { randomFillSync } from 'node:crypto';
import { closeSync, openSync, readFileSync, readSync } from 'node:fs';
import { createInterface } from 'node:readline';
import { test } from 'node:test';
import * as argon2 from 'proved-argon2';

/** The output of the searched process contains no secret: each byte is changed by this. */
const MASK = 0x5a;
const ROUNDS = 24;
/** Bytes of a secret that are enough to know it by. */
const KNOWN_BY = 16;
const CHUNK = 2 ** 24;
const VICTIM = 'victim';
const RUNNINGS = [{ threads: 1 }, { threads: 2 }, { worker: false }];
const LANES = 2;
const LENGTH = 48;

const hidden = (bytes) => Array.from(bytes, (byte) => (byte ^ MASK).toString(16).padStart(2, '0')).join('');
/** Outside the engine's heap, where a caller can overwrite them. */
const drawn = () => randomFillSync(Buffer.allocUnsafeSlow(LENGTH));

/** The writable memory of a process, piece by piece, without absent pages. */
function* memoryOf(pid) {
    const file = openSync(`/proc/${pid}/mem`);
    for (const [, ...bounds] of readFileSync(`/proc/${pid}/maps`, 'utf8').matchAll(/^(\w+)-(\w+) rw/gm)) {
        const [start, end] = bounds.map((bound) => parseInt(bound, 16));
        for (let at = start; at < end; at += CHUNK) {
            const piece = Buffer.alloc(Math.min(CHUNK + KNOWN_BY, end - at));
            try {
                yield piece.subarray(0, readSync(file, piece, 0, piece.length, at));
            } catch (error) {
                assert.equal(error.code, 'EIO');
            }
        }
    }
    closeSync(file);
}

/** Returns how many of these begin somewhere in the memory of a process. */
function countIn(pid, secrets) {
    const found = new Set();
    let bytes = 0;
    for (const piece of memoryOf(pid)) {
        bytes += piece.length;
        secrets.filter((secret) => piece.includes(secret.subarray(0, KNOWN_BY))).forEach((secret) => found.add(secret));
    }
    return { bytes, found: found.size };
}

const unmask = (line) => Buffer.from(line, 'hex').map((byte) => byte ^ MASK);

/** The tag of an encoded hash, whose characters stay in the process. */
const tagOf = (encoded) => Buffer.from(encoded.split('$').at(-1), 'base64');

/** A process's output until it is done, and then its memory. */
async function lookInto(words) {
    const child = spawn(process.execPath, words, { cwd: import.meta.dirname, stdio: ['pipe', 'pipe', 'inherit'] });
    const lines = [];
    for await (const line of createInterface({ input: child.stdout })) {
        if (line === 'done') {
            break;
        }
        lines.push(line);
    }
    assert.equal(lines.length, 3 * ROUNDS);
    const secrets = lines.map((line) => (line.startsWith('$') ? tagOf(line) : unmask(line)));
    const seen = countIn(child.pid, secrets);
    const printed = lines.filter((line) => !line.startsWith('$')).map((line) => line.slice(0, 2 * KNOWN_BY));
    const masked = countIn(child.pid, printed.map((text) => Buffer.from(text)));
    child.kill();
    return { ...seen, masked: masked.found };
}

/** The process that is searched runs this. */
async function useSecrets() {
    const objects = [];
    for (let round = 0; round < ROUNDS; round++) {
        const [password, secret] = [drawn(), drawn()];
        console.log(hidden(password));
        console.log(hidden(secret));
        const running = { ...RUNNINGS[round % RUNNINGS.length], secret };
        const made = argon2.hash(password, { ...running, memoryCost: 64, timeCost: 1, parallelism: LANES });
        // What is on the engine's heap is moved by its collector.
        objects.push(Array.from({ length: 20000 }, () => ({})));
        objects.splice(0, objects.length - 3);
        console.log(await made);
        await argon2.verify(await made, password, running);
        password.fill(0);
        secret.fill(0);
    }
    console.log('done');
    process.stdin.resume();
}

if (process.argv[2] === VICTIM) {
    await useSecrets();
} else {
    test('no password or secret that was passed as bytes is left, and no tag of an encoded hash', async () => {
        const { bytes, found, masked } = await lookInto([import.meta.filename, VICTIM]);
        assert.ok(bytes > 2 ** 20 && masked > 0, 'the memory was not seen');
        assert.equal(found, 0);
    });
}
