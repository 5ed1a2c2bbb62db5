// What Node and browsers do differently: files, workers, the number of processors, and how other tasks get their turn.
import { Unsupported } from './errors.js';
import { processorsOfQuota } from './quota.js';

// Node's own modules are loaded without an import, which would fail in browsers and bundlers.
const builtin = (name) => globalThis.process?.getBuiltinModule?.(`node:${name}`);

/** Node's module for workers, in Node. */
export const nodeThreads = builtin('worker_threads');

/** Throws if Node is too old to load its modules without an import. */
export function requireEngine() {
    const node = globalThis.process?.versions?.node;
    if (node !== undefined && nodeThreads === undefined) {
        throw new Unsupported(`Node ${node} is too old: this needs Node 20.19, 22.12 or 24`);
    }
}

/** Whether workers can share a memory: always in Node, and in a page that is isolated from other origins. */
export const canShare = () => nodeThreads !== undefined
    || (globalThis.crossOriginIsolated === true && globalThis.SharedArrayBuffer !== undefined);

/** Whether this thread may start workers. Node's permission model may deny it. */
export const canStartWorkers = () => (nodeThreads
    ? globalThis.process.permission?.has('worker') !== false
    : globalThis.Worker !== undefined);

/** The text of a file, or '' if it cannot be read. */
function textOf(name) {
    try {
        return builtin('fs').readFileSync(name, 'utf8');
    } catch {
        return '';
    }
}

/** The processors of the quota of this process, which is read once, since each call asks for it. */
let quota;

/** How many workers can run at the same time. */
export function processors() {
    if (nodeThreads === undefined) {
        return globalThis.navigator?.hardwareConcurrency ?? 1;
    }
    quota ??= processorsOfQuota(textOf);
    return Math.max(1, Math.min(builtin('os').availableParallelism(), quota));
}

/** The memory in bytes that this process may use, as far as the engine knows. */
export function memoryOfSystem() {
    const { navigator, process } = globalThis;
    return nodeThreads
        ? Math.min(builtin('os').totalmem(), process.constrainedMemory() || Infinity)
        : (navigator?.deviceMemory ?? Infinity) * 2 ** 30;
}

/** The name of a file, in Node. */
export const fileOf = (url) => builtin('url').fileURLToPath(url);

/** Reads a file of the package. */
export async function readFile(url) {
    if (url.protocol === 'file:' && nodeThreads) {
        return builtin('fs/promises').readFile(url);
    }
    const response = await fetch(url);
    if (!response.ok) {
        throw new Error(`${url} cannot be fetched: ${response.status}`);
    }
    return response.arrayBuffer();
}

/** In a worker, the port to the thread that started it. */
export const caller = nodeThreads?.parentPort ?? globalThis;

/** Lets other tasks of this thread run: messages, timers and, in a page, drawing. */
export function yieldToTasks() {
    return new Promise((resume) => {
        if (globalThis.setImmediate) {
            setImmediate(resume);
            return;
        }
        const { port1, port2 } = new MessageChannel();
        port1.onmessage = () => {
            port1.close();
            resume();
        };
        port2.postMessage(0);
    });
}
