// Some of these calls are accepted by the types, and some are not: tsc --noEmit --strict. It is never run.
import argon2, {
    AbortError, Argon2Error, BusyError, Line, PepperedHasher, SaltTooShort, UnknownPepper, argon2id, defaultLimits,
    hash, needsRehash, presets, tune, verify, verifyAndUpdate, verifyUnknown,
} from 'proved-argon2';
import type { HashOptions, Limits, Settings } from 'proved-argon2';
import * as inline from 'proved-argon2/inline';

export async function right(password: string, key: Uint8Array, signal: AbortSignal): Promise<boolean> {
    const costs: Settings = { memoryCost: 19456, timeCost: 2, parallelism: 1 };
    const all: Settings = { type: argon2id, version: 0x13, ...costs, hashLength: 24 };
    const settings: Settings = { ...presets.owasp1, ...all };
    const options: HashOptions = { ...settings, type: argon2id, secret: key, associatedData: key.buffer, signal };
    const encoded: string = await hash(password, { ...settings, onProgress: (done, all) => console.log(done / all) });
    const tag: Uint8Array = await hash(key, { ...settings, raw: true, salt: key, worker: false, threads: 2 });
    const other: string = await argon2.hash(password, options);
    const either: string | Uint8Array = await argon2.hash(password, { ...options, raw: other === '' });
    const limits: Limits = { ...defaultLimits, memoryCost: 65536, timeCost: 4, parallelism: 4, work: 1048576 };
    const verdict: boolean = await verify(encoded, password, { secret: tag, limits });
    const renewed: boolean = await needsRehash(encoded, settings);
    const { matches, update } = await verifyAndUpdate(encoded, password, { ...settings, secret: key, limits });
    const line = new Line({ ...settings, concurrency: 2 });
    const length: number = await line.run(async () => line.concurrency + line.waiting, { signal });
    const hasher = new PepperedHasher([['2026', key]], { ...settings, limits, line });
    const stored: { keyId: string, encoded: string } = await hasher.hash(password, { associatedData: key });
    const peppered = await hasher.verifyAndUpdate(null, stored.encoded, password);
    new PepperedHasher([['2026', key]], { acceptUnpeppered: true });
    const unknown: false = await verifyUnknown(password, { ...settings, limits });
    const nobody: false = await hasher.verifyUnknown(password) || unknown;
    const { parameters, milliseconds } = await tune(250, { memoryCost: 65536, signal });
    console.log(length, matches, update?.length, peppered.update?.keyId);
    console.log(parameters.timeCost, milliseconds.toFixed());
    try {
        return verdict && renewed && !nobody && await inline.verify(encoded, key, { limits: null }) && either !== tag;
    } catch (error) {
        if (error instanceof SaltTooShort || error instanceof Argon2Error) {
            const code: number = error.code;
            return error.name === 'TooCostly' && code === 69;
        }
        if (error instanceof AbortError || error instanceof BusyError || error instanceof UnknownPepper) {
            return error.name === 'AbortError';
        }
        throw error;
    }
}

export async function wrong(password: string): Promise<void> {
    // @ts-expect-error: a hash is a promise
    const now: string = hash(password);
    // @ts-expect-error: bytes are not a string
    const raw: string = await hash(password, { raw: true });
    // @ts-expect-error: there is no such option
    await hash(password, { memorycost: 65536 });
    // @ts-expect-error: there is no such variant
    await hash(password, { type: 3 });
    // @ts-expect-error: a variant is a number
    await hash(password, { type: 'argon2id' });
    // @ts-expect-error: passes are a number
    await hash(password, { timeCost: '2' });
    // @ts-expect-error: a salt is bytes
    await hash(password, { salt: 'some salt' });
    // @ts-expect-error: a string is verified, and not bytes
    await verify(new Uint8Array(), password);
    // @ts-expect-error: a salt is in the string
    await verify('', password, { salt: new Uint8Array() });
    // @ts-expect-error: limits have no such number
    await verify('', password, { limits: { memory: 5 } });
    // @ts-expect-error: an object does not keep the order of its IDs
    new PepperedHasher({ 2026: new Uint8Array(1) });
    // @ts-expect-error: a hasher has the option to accept hashes without a pepper, a call does not
    await new PepperedHasher([]).verifyAndUpdate(null, '', password, { acceptUnpeppered: true });
    // @ts-expect-error: a line is no number
    await hash(password, { line: 2 });
    // @ts-expect-error: presets cannot be changed
    presets.owasp1.timeCost = 5;
}
