// The proved module in the caller's thread. It is compiled once, and used for quick calls and for runs.
import { readModule } from './assets.js';
import { Unsupported } from './errors.js';
import { Line } from './line.js';
import { Memory, pointer } from './memory.js';
import { canShare, yieldToTasks } from './platform.js';
import { run } from './run.js';

/** The largest memory, in bytes, that the next call uses again. */
const MAX_REUSED = 2 ** 20;

/** Makes something once, and makes it anew after a failure or when it was dropped. */
function keep(make) {
    let made;
    const drop = () => {
        made = undefined;
    };
    const get = () => {
        made ??= make();
        made.catch(drop);
        return made;
    };
    return { get, drop };
}

/** The module for a shared memory, if workers can share one; otherwise the module with a memory of its own. */
const compiled = keep(async () => {
    if (globalThis.WebAssembly === undefined) {
        throw new Unsupported('This engine has no WebAssembly');
    }
    return WebAssembly.compile(await readModule(canShare()));
});

export const compiledModule = compiled.get;

/** The memory of quick calls. */
const opened = keep(() => compiledModule().then(Memory.open));

const asBytes = ({ buffer, byteOffset, byteLength }) => new Uint8Array(buffer, byteOffset, byteLength);

/** The argument for a value. Numbers in an array are passed by an address, bytes by a place, and others as they are. */
function placeFor(value, place) {
    return value instanceof Uint32Array ? pointer(place) : place ?? value;
}

/**
 * Makes a call with arrays, and copies back what it wrote to them. Then the memory is overwritten. It is dropped if it
 * has become large, or if its instance failed.
 */
function callOver(memory, name, ...values) {
    let isReusable = false;
    try {
        const arrays = values.filter(ArrayBuffer.isView);
        const places = memory.putAll(arrays.map(asBytes));
        const result = memory.call(name, ...values.map((value) => placeFor(value, places[arrays.indexOf(value)])));
        arrays.forEach((array, i) => asBytes(array).set(memory.view(places[i])));
        isReusable = memory.size <= MAX_REUSED;
        return result;
    } finally {
        memory.clear();
        if (!isReusable) {
            opened.drop();
        }
    }
}

/** The quick calls, computed by the module. The addon has the same, except for the one that encodes. */
export async function openCalls() {
    const memory = await opened.get();
    const call = (...values) => callOver(memory, ...values);
    return {
        check: (settings, lengths) => call('check', settings, ...lengths),
        checkEncoded: (encoded, limits, lengths, stored) => call('check_encoded', encoded, limits, ...lengths, stored),
        encodedLength: (salt, settings) => Number(call('encoded_len', settings, salt.length)),
        encode: (salt, settings, tag, text) => call('encode', salt, settings, tag, text),
        needsRehash: (encoded, settings) => call('needs_rehash', encoded, settings),
    };
}

const line = new Line({ concurrency: 1, waiting: 2 ** 32 - 1 });
/** The memory of the previous run, overwritten, unless the engine has collected it. */
let previous;

async function runNow(task, progress) {
    const memory = previous?.deref() ?? await Memory.open(await compiledModule());
    previous = new WeakRef(memory);
    const report = async (done, all) => {
        const isStopped = progress.report(done, all);
        await yieldToTasks();
        return isStopped || progress.isStopped;
    };
    return run(memory, task, { helpers: 0, invite: undefined, report });
}

/** Runs a task once the runs before it have ended, and yields to other tasks of this thread after each slice. */
export const runInPlace = (task, progress) => line.run(() => runNow(task, progress), progress);
