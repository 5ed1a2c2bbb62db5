// The program of a worker. It leads runs in its own memory, or helps another worker to fill that worker's memory.
import { Inputs } from './bytes.js';
import { Memory } from './memory.js';
import { caller, yieldToTasks } from './platform.js';
import { help, run } from './run.js';

/** The worker's own memory, once it has led a run. Between runs it is overwritten. */
let memory;
let isStopped = false;

/** The port of the worker that this one helps. */
let leader;

/**
 * Invites helpers, each by a port of its own, and waits until they have joined. Some engines do not pass a memory by a
 * port: WebKit never does, and Firefox sometimes loses it. Then the thread that started both workers passes it on.
 */
function inviteBy(ports) {
    return (invitations) => Promise.all(ports.map((port, helper) => new Promise((resolve) => {
        const passOn = () => caller.postMessage({ helper, invitation: invitations[helper] });
        port.onmessage = ({ data }) => (data.hasJoined ? resolve() : passOn());
        try {
            port.postMessage(invitations[helper]);
        } catch (error) {
            if (error.name !== 'DataCloneError') {
                throw error;
            }
            passOn();
        }
    })));
}

/** The worker's own memory, which is opened for the first run. */
async function openOwn(module) {
    memory ??= await Memory.open(module);
    return memory;
}

async function lead({ module, task, ports, isReported }) {
    isStopped = false;
    task.inputs = new Inputs(task.inputs);
    const report = async (done, all) => {
        if (isReported) {
            caller.postMessage({ done, all });
        }
        await yieldToTasks();
        return isStopped;
    };
    const { code, tag } = await run(openOwn(module), task, { helpers: ports.length, invite: inviteBy(ports), report });
    ports.forEach((port) => port.close());
    caller.postMessage({ code, tag }, tag ? [tag.buffer] : []);
}

async function join(module, invitation) {
    const joined = await Memory.join(module, invitation.memory, invitation.stack);
    leader.postMessage({ hasJoined: true });
    help(joined, invitation);
    leader.close();
}

/** Does some work, and reports a failure to the thread that started this worker, which then ends it. */
async function attempt(work) {
    try {
        await work();
    } catch (error) {
        caller.postMessage({ failure: String(error) });
    }
}

/** Waits for an invitation of the worker that leads. */
function waitForInvitation({ module, port }) {
    leader = port;
    port.onmessage = ({ data }) => attempt(() => join(module, data));
    port.onmessageerror = () => port.postMessage({ hasJoined: false });
}

caller.onmessageerror = () => caller.postMessage({ failure: 'a message to the worker could not be read' });
caller.onmessage = ({ data }) => attempt(async () => {
    if (data.stop) {
        isStopped = true;
    } else if (data.port) {
        waitForInvitation(data);
    } else if (data.invitation) {
        await join(data.module, data.invitation);
    } else {
        await lead(data);
    }
});
