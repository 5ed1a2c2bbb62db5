// The two modules import and export what they should, compute the outside vectors, and trap for good beyond their
// memory. MODULES and VECTORS name folders, CALLS has the names of the calls.
import assert from 'node:assert/strict';
import { readFileSync } from 'node:fs';
import { test } from 'node:test';
import { Memory, Place, pointer } from '../../javascript/src/memory.js';
import { hashesOf } from '../../javascript/tests/hashes.mjs';

const { MODULES: folder, VECTORS: vectors, CALLS } = process.env;
const load = (name) => new WebAssembly.Module(readFileSync(`${folder}/${name}.wasm`));
// A module has these imports, and exports these names beside its calls.
const MODULES = {
    'the module': [load('proved_argon2'), [], 'memory memory'],
    'the shared module': [load('proved_argon2_shared'), ['memory env.memory'], 'global __stack_pointer'],
};
const BLOCK = 1024, STORED = 64;  // bytes

// Room for blocks, with other blocks' remains in it.
function takeBlocks(memory, count) {
    const blocks = memory.take(count, BLOCK);
    memory.view(new Place(blocks.at, count * BLOCK)).fill(0xA5);
    return blocks;
}

// The vectors that are small enough to be all computed.
const small = hashesOf(`${vectors}/raw.txt`, 240).filter(({ settings: { memoryCost }, expected }) =>
    memoryCost <= 1024 && !expected.startsWith('ERR'));

function hash(memory, { settings: { hashLength, ...others }, salt, inputs: { password, secret, associatedData } }) {
    memory.clear();
    const settings = pointer(memory.putNumbers([...Object.values(others), hashLength]));
    const places = memory.putAll([password, salt, secret, associatedData]);
    const blocks = takeBlocks(memory, Number(memory.call('memory_len', settings)) / BLOCK);
    const tag = memory.take(hashLength);
    assert.equal(memory.call('hash_over', ...places, settings, blocks, tag), 0);
    return Buffer.from(memory.read(tag)).toString('hex');
}

async function computesTheVectors(module) {
    const memory = await Memory.open(module);
    assert.ok(small.length > 100);
    for (const vector of small) assert.equal(hash(memory, vector), vector.expected, vector.line);
}

// Access beyond the memory traps, and so does each later call: a write may have stopped halfway.
async function trapsForGood(module) {
    const memory = await Memory.open(module), place = memory.take(STORED), stored = pointer(place);
    const read = (from) => memory.call('read', from, stored);
    read(new Place(place.at, 8));
    assert.throws(() => read(new Place(memory.size, 8)), WebAssembly.RuntimeError);
    assert.throws(() => read(new Place(place.at, 8)), WebAssembly.RuntimeError);
    assert.throws(() => memory.call('library_version'), WebAssembly.RuntimeError);
    assert.equal((await Memory.open(module)).call('library_version'), 1000000);
}

for (const [name, [module, imports, memoryOrStack]] of Object.entries(MODULES)) {
    test(`${name} imports ${imports.length > 0 ? 'a memory alone' : 'nothing'}`, () => {
        const found = WebAssembly.Module.imports(module);
        assert.deepEqual(found.map((entry) => `${entry.kind} ${entry.module}.${entry.name}`), imports);
    });
    test(`${name} exports its calls, its ${memoryOrStack.split(' ')[1]} and the end of its tables`, () => {
        const calls = CALLS.split(' ').map((call) => `function ${call}`);
        const found = WebAssembly.Module.exports(module).map((entry) => `${entry.kind} ${entry.name}`);
        assert.deepEqual(found.sort(), [...calls, 'global __heap_base', memoryOrStack].sort());
    });
    test(`${name} computes the vectors`, () => computesTheVectors(module));
    test(`${name} traps beyond its memory, and from then on`, () => trapsForGood(module));
}
