// The workers of this thread, at most as many as there are processors. One worker leads a call, and others help it: if
// the thread of the caller led, a hash would wait for whatever a page does. The worker also computes H0, so that a long
// password does not stop a server.
import { Rejected, STOPPED, WORKER_REFUSED } from './codes.js';
import { LaneWorker } from './lane_worker.js';
import { compiledModule } from './module.js';
import { canShare, processors } from './platform.js';
import { Places } from './turns.js';

/** The workers that have a call. */
const working = new Places(processors);
/** Idle workers. The one that worked last is taken first, so that others can end. */
const idle = [];

/** An idle worker, preferably one whose `hasMemory` is the same; a new worker if none is idle. */
function takeWorker(hasMemory) {
    const index = idle.findLastIndex((worker) => worker.hasMemory === hasMemory);
    const [worker] = idle.splice(index, 1);
    try {
        return (worker ?? new LaneWorker(forgetWorker)).wake();
    } catch (cause) {
        throw new Rejected(WORKER_REFUSED, cause);
    }
}

/**
 * Forgets a worker that has ended. Workers that joined its memory end too, as soon as they are idle: engines free the
 * memory only then.
 */
function forgetWorker(ended) {
    if (idle.includes(ended)) {
        idle.splice(idle.indexOf(ended), 1);
    }
    idle.filter((worker) => worker.joined.has(ended)).forEach((worker) => worker.end());
}

/** Takes back a worker that has done its part of a call. */
function release(worker) {
    worker.call = undefined;
    if ([...worker.joined].some((leader) => leader.isEnded)) {
        worker.end();
    } else if (!worker.isEnded) {
        idle.push(worker);
        worker.rest();
    }
}

/** A call that one worker leads while others help. */
class Call {
    #leader;
    #helpers;
    #progress;
    #module;
    #end;
    #ended = new Promise((resolve, reject) => {
        this.#end = { resolve, reject };
    });

    constructor(taken, progress) {
        [this.#leader, ...this.#helpers] = taken;
        this.#leader.hasMemory = true;
        this.#helpers.forEach((helper) => helper.joined.add(this.#leader));
        this.#progress = progress;
        this.#ended.catch(() => {}); // (As long as nobody awaits it, a rejection would end the process.)
        for (const worker of taken) {
            worker.call = this;
        }
    }

    async run(task) {
        this.#module = await compiledModule();
        if (this.#progress.isStopped) {
            throw new Rejected(STOPPED);
        }
        const forget = this.#progress.whenAborted(() => this.#stop());
        this.#begin(task);
        return this.#ended.finally(forget);
    }

    /** The leader passes the memory to each helper by a channel: this thread would keep it until it is collected. */
    #begin(task) {
        const channels = this.#helpers.map(() => new MessageChannel());
        const ports = channels.map(({ port1 }) => port1);
        const message = { module: this.#module, task, ports, isReported: this.#progress.isReported };
        this.#leader.post(message, [...task.inputs.moved, ...ports]);
        this.#helpers.forEach((helper, i) =>
            helper.post({ module: this.#module, port: channels[i].port2 }, [channels[i].port2]));
    }

    #stop() {
        this.#leader.post({ stop: true });
    }

    /** Handles a message of a worker: a failure, the result of the call, an invitation to a helper, or the progress. */
    hear(message) {
        if (message.failure !== undefined) {
            this.fail(new Error(message.failure));
        } else if (message.code !== undefined) {
            this.#end.resolve(message);
        } else if (message.invitation) {
            this.#helpers[message.helper].post({ module: this.#module, invitation: message.invitation });
        } else if (this.#progress.report(message.done, message.all)) {
            this.#stop();
        }
    }

    /** Ends all workers of the call, since they wait for each other. */
    fail(cause) {
        this.#end.reject(new Rejected(WORKER_REFUSED, cause));
        for (const worker of [this.#leader, ...this.#helpers]) {
            worker.call = undefined;
            worker.end(cause);
        }
    }
}

/** Runs a task by some workers, up to a maximum. Returns its code and its tag. */
export async function runByWorkers(task, most, progress) {
    const count = await working.takeInTurn(canShare() ? most : 1, progress);
    const taken = [];
    try {
        // (A worker with a memory leads, so that helpers need none.)
        while (taken.length < count) {
            taken.push(takeWorker(taken.length === 0));
        }
        return await new Call(taken, progress).run(task);
    } finally {
        taken.forEach(release);
        working.leave(count);
    }
}
