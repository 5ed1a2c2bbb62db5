// A worker as its pool sees it. It works for one call at a time, and ends after some idle time.
import { newPageWorker, newThread } from './assets.js';
import { nodeThreads } from './platform.js';

/** How long an idle worker stays, in milliseconds. When it ends, its memory is freed. */
const STAYS = 5000;

/** A worker of Node. */
function startThread(onMessage, onEnd) {
    // (The flags of the process are not passed on: with `--input-type` the worker's file could not start.)
    const worker = newThread(nodeThreads.Worker, { execArgv: [] });
    worker.on('message', onMessage);
    worker.on('error', onEnd);
    worker.on('messageerror', onEnd);
    worker.on('exit', (status) => onEnd(new Error(`the worker has ended with status ${status}`)));
    return worker;
}

/** A worker of a page. */
function startInPage(onMessage, onEnd) {
    const worker = newPageWorker();
    worker.onmessage = ({ data }) => onMessage(data);
    worker.onerror = ({ message }) => onEnd(new Error(message || 'the file of the worker could not be loaded'));
    worker.onmessageerror = () => onEnd(new Error('a message of the worker could not be read'));
    return worker;
}

const start = nodeThreads ? startThread : startInPage;

export class LaneWorker {
    /** The call that receives its messages and learns of its end. */
    call;
    /** Whether it has a memory of its own, because it has led a run. */
    hasMemory = false;
    /** The workers whose memory it has joined. An engine may keep these memories as long as this worker lives. */
    joined = new Set();
    isEnded = false;
    #worker;
    #timer;
    #onEnd;

    constructor(onEnd) {
        this.#onEnd = onEnd;
        const onMessage = (message) => this.call?.hear({ __proto__: null, ...message });
        this.#worker = start(onMessage, (cause) => this.end(cause));
    }

    post(message, moved = []) {
        this.#worker.postMessage(message, moved);
    }

    wake() {
        clearTimeout(this.#timer);
        this.#worker.ref?.();
        return this;
    }

    /** Lets it wait for work. Meanwhile it does not keep a process of Node alive. */
    rest() {
        this.#worker.unref?.();
        this.#timer = setTimeout(() => this.end(), STAYS);
        this.#timer.unref?.();
    }

    /** Ends the worker, and with it the call that it works for. */
    end(cause) {
        if (this.isEnded) {
            return;
        }
        this.isEnded = true;
        clearTimeout(this.#timer);
        this.#worker.terminate();
        this.call?.fail(cause);
        this.#onEnd(this);
    }
}
