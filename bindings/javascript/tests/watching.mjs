// The tests see this of the package from outside: its workers, and the contents of all memories of the module.
// It is loaded before the package, in the thread of a test and, by `--import`, in each worker.
import { execFile } from 'node:child_process';
import { setTimeout as sleep } from 'node:timers/promises';
import { promisify } from 'node:util';
import threads, { BroadcastChannel, MessagePort, isMainThread, threadId } from 'node:worker_threads';

const STACK = 65536;
const STAYS = 5000;
/** Each instance that the package makes, with its memory: tests can look at what the package drops, too. */
const instances = [];
const keepsInstances = process.env.KEEPS_INSTANCES !== 'no';
/** The workers that still exist. */
export const workers = [];
let started = 0;
let stays = 3600000;

const { instantiate } = WebAssembly;
WebAssembly.instantiate = async (...values) => {
    const made = await instantiate(...values);
    const { exports } = made.instance ?? made;
    if (keepsInstances && 'proved_argon2_job_make' in exports) { // (Node has modules of its own)
        const { memory = values[1].env.memory, __heap_base: base } = exports;
        instances.push({ base: Number(base.value), memory });
    }
    return made;
};

const held = (memory, from, to) => new Uint32Array(memory.buffer, from, (to - from) / 4)
    .reduce((bytes, word) => bytes + (word === 0 ? 0 : 4), 0);

/** Counts the bytes of the memories in non-zero words outside of the module's tables, and all of them. */
export function look() {
    const memories = instances.map(({ base, memory }) => {
        const bytes = memory.buffer.byteLength;
        return { bytes, held: held(memory, 0, STACK) + held(memory, base, bytes) };
    });
    const sumOf = (name) => memories.reduce((sum, memory) => sum + memory[name], 0);
    return { threadId, bytes: sumOf('bytes'), held: sumOf('held') };
}

/** Returns the same of each worker. */
export async function lookIntoWorkers() {
    const channel = new BroadcastChannel('memories');
    const found = [];
    channel.onmessage = ({ data }) => found.push(data);
    channel.postMessage('look');
    while (found.length < workers.length) { // (a worker may go meanwhile)
        await sleep(5);
    }
    channel.close();
    return found;
}

/** Has idle workers stay this long from now on. Otherwise they may end while a test waits. */
export function letStay(milliseconds) {
    stays = milliseconds;
}

/** Returns a function: how many workers were started since. */
export function countWorkers() {
    const before = started;
    return () => started - before;
}

/** The output of a Node process with these arguments and variables. */
export async function outputOf(words, variables = {}) {
    const how = { cwd: import.meta.dirname, env: { ...process.env, ...variables } };
    return (await promisify(execFile)(process.execPath, words, how)).stdout;
}

function watchWorkers() {
    threads.Worker = class extends threads.Worker {
        constructor(file, options) {
            super(file, { ...options, execArgv: ['--import', import.meta.url] });
            started += 1;
            workers.push(this);
            this.on('exit', () => workers.splice(workers.indexOf(this), 1));
        }
    };
    const { setTimeout: wait } = globalThis;
    globalThis.setTimeout = (call, delay, ...more) => wait(call, delay === STAYS ? stays : delay, ...more);
}

function tellWhatIsHeld() {
    const channel = new BroadcastChannel('memories');
    // This ignores other workers' answers.
    channel.onmessage = ({ data }) => data === 'look' && channel.postMessage(look());
    channel.unref();
}

/** As sometimes in Firefox, a memory that is passed by a port is lost, and a `messageerror` event reports it. */
function loseMemories() {
    const { get, set } = Object.getOwnPropertyDescriptor(MessagePort.prototype, 'onmessage');
    Object.defineProperty(MessagePort.prototype, 'onmessage', {
        get,
        set(hear) {
            set.call(this, (event) => (event.data.memory ? this.onmessageerror?.(event) : hear(event)));
        },
    });
}

if (isMainThread) {
    watchWorkers();
} else {
    tellWhatIsHeld();
    if (process.env.LOSES_MEMORIES) {
        loseMemories();
    }
}
