// The hashes that bindings/vectors contains or draws at random: each line has settings, inputs and the expected hash.
import assert from 'node:assert/strict';
import { readFileSync } from 'node:fs';

export const VARIANTS = ['argon2d', 'argon2i', 'argon2id'];
const bytesOf = (hex) => Buffer.from(hex === '-' ? '' : hex, 'hex');
export const linesOf = (file) => readFileSync(file, 'utf8').split('\n').filter(Boolean);

function hashOf(line) {
    const [type, version, timeCost, memoryCost, parallelism, hashLength, ...others] = line.split(' ');
    const [password, salt, secret, associatedData] = others.slice(0, 4).map(bytesOf);
    const settings = { type: VARIANTS.indexOf(type), version: +version, memoryCost: +memoryCost, timeCost: +timeCost,
        parallelism: +parallelism, hashLength: +hashLength };
    return { line, settings, salt, inputs: { password, secret, associatedData }, expected: others.slice(4).join(' ') };
}

/** The hashes of a file, at least this many. The expected result is hexadecimal, or `ERR` and the error's words. */
export function hashesOf(file, least) {
    const hashes = linesOf(file).map(hashOf);
    assert.ok(hashes.length >= least, `${hashes.length} lines`);
    return hashes;
}
