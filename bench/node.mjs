// Hashes by the package for JavaScript for each input line, and prints the tag and the milliseconds, for times.py:
// node.mjs MODULE native|wasm KIB PASSES LANES THREADS
import { createInterface } from 'node:readline';

const [module, way, ...cost] = process.argv.slice(2);
const [memoryCost, timeCost, parallelism, threads] = cost.map(Number);
const salt = new TextEncoder().encode('somesaltsomesalt');
const options = { salt, memoryCost, timeCost, parallelism, threads, native: way === 'native', raw: true };
const { hash } = await import(module);
for await (const line of createInterface({ input: process.stdin })) {
    const began = performance.now(), tag = await hash('password', options);
    console.log(line + Buffer.from(tag).toString('hex'), performance.now() - began);
}
process.exit();
