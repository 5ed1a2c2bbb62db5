// A run of a task: it makes the job, and fills the memory slice by slice, alone or with helpers. Then the memory is
// overwritten, whatever happened.
import { Barrier } from './barrier.js';
import { OK, Rejected, STOPPED, check } from './codes.js';
import { Place, pointer, STACK } from './memory.js';

// ---- a job as proved_argon2_jobs.h defines it, and its steps over the blocks of a memory

const SLICES = 4;
const BLOCK = 1024;
/** How many numbers proved_argon2_settings has, and the places of some of them in it. */
export const SETTINGS = 6;
const MEMORY_COST = 2;
const LANES = 4;
const HASH_LENGTH = 5;
/** The offset of a job's numbers, behind H0. */
const NUMBERS = 64;
const JOB = NUMBERS + 6 * 4;

/** About how many bytes the blocks take. */
export const sizeOf = (settings) => BLOCK * settings[MEMORY_COST];
export const lanesOf = (settings) => settings[LANES];
export const hashLengthOf = (settings) => settings[HASH_LENGTH];

/** The place of a slice. */
function sliceOf(layout, slice) {
    const length = layout.lanes * layout.segmentLength;
    return new Place(layout.blocks.at + slice * length * BLOCK, length);
}

function segmentOf(layout, slice, lane) {
    return new Place(sliceOf(layout, slice).at + lane * layout.segmentLength * BLOCK, layout.segmentLength);
}

/** Takes a step of one lane. Step 0 writes its first blocks; step n + 1 fills slice n, counted over all passes. */
function takeStepOfLane(memory, layout, step, lane) {
    const job = pointer(layout.job);
    if (step === 0) {
        return memory.call('job_begin', job, lane, segmentOf(layout, 0, lane));
    }
    const slice = (step - 1) % SLICES;
    const pass = Math.floor((step - 1) / SLICES);
    const others = [0, 1, 2, 3].filter((other) => other !== slice).map((other) => sliceOf(layout, other));
    return memory.call('job_fill', job, pass, slice, lane, ...others, segmentOf(layout, slice, lane));
}

/** Takes a step of the lanes `first`, `first + stride`, `first + 2 stride` and so on. Returns the first error. */
function takeStep(memory, layout, step, first, stride) {
    let code = OK;
    for (let lane = first; lane < layout.lanes && code === OK; lane += stride) {
        code = takeStepOfLane(memory, layout, step, lane);
    }
    return code;
}

// ---- a run

/** Takes all places that a run needs, before the memory has a secret: an engine may copy a memory that grows. */
function takePlaces(memory, { settings, saltLength }, helpers) {
    const numbers = memory.putNumbers(settings);
    const blocks = Number(memory.call('memory_len', pointer(numbers))) / BLOCK;
    return {
        settings: numbers,
        job: memory.take(JOB),
        blocks: memory.take(blocks, BLOCK),
        tag: memory.take(hashLengthOf(settings)),
        hash: memory.take(hashLengthOf(settings)),
        salt: memory.take(saltLength),
        barrier: memory.take(Barrier.size(helpers), 4),
        stacks: Array.from({ length: helpers }, () => memory.take(STACK)),
    };
}

/** Writes the job of a hash or, for a verification, the job of the string and the hash in it. */
function makeJob(memory, { encoded, inputs }, places) {
    const { password, salt, secret, associatedData } = inputs;
    const inputPlaces = memory.putAll([encoded ?? salt, password, secret, associatedData]);
    inputs.clear();
    const [first, ofPassword, ...keys] = inputPlaces;
    const job = pointer(places.job);
    const code = encoded === undefined
        ? memory.call('job_make', ofPassword, first, ...keys, pointer(places.settings), job)
        : memory.call('job_read', first, ofPassword, ...keys, job, places.salt, places.hash);
    inputPlaces.forEach((place) => memory.clearPlace(place));
    check(code);
    // (These numbers determine the steps and their blocks.)
    const [, , lanes, segmentLength, passes] = memory.numbersAt({ at: places.job.at + NUMBERS }, 5);
    return { lanes, segmentLength, passes, job: { ...places.job }, blocks: { ...places.blocks } };
}

/** Takes each step together with the helpers. `report` is called with the progress, and returns whether to stop. */
async function fill(memory, layout, barrier, helpers, report) {
    const slices = SLICES * layout.passes;
    for (let step = 0; step <= slices; step++) {
        barrier?.begin(step);
        const own = takeStep(memory, layout, step, 0, helpers + 1);
        [own, ...(barrier?.codesOf(step) ?? [])].forEach((code) => check(code));
        if (step > 0 && await report(step, slices)) {
            throw new Rejected(STOPPED);
        }
    }
}

/** The part of a helper: the same steps for other lanes. */
export function help(memory, { layout, barrier: place, helper, helpers }) {
    const barrier = new Barrier(memory.shared, place);
    for (let step = 0; barrier.hasStep(step); step++) {
        barrier.report(helper, step, takeStep(memory, layout, step, helper, helpers + 1));
    }
    barrier.leave(helper);
}

/** The tag of a hash or, for a verification, the verdict. */
function finish(memory, layout, { hash, tag }, isVerified) {
    const last = sliceOf(layout, 3);
    const job = pointer(layout.job);
    if (isVerified) {
        return { code: memory.call('job_verify', job, last, hash, tag) };
    }
    return { code: memory.call('job_finish', job, last, tag), tag: memory.read(tag) };
}

/** An invitation for each helper: all it needs to join the memory, with a stack of its own. */
function invitationsTo(memory, layout, { stacks, barrier }) {
    const common = { memory: memory.shared, layout, barrier: { ...barrier }, helpers: stacks.length };
    return stacks.map((stack, i) => ({ ...common, stack: { ...stack }, helper: i + 1 }));
}

async function computeOver(memory, task, { helpers, invite, report }) {
    const places = takePlaces(memory, task, helpers);
    const layout = makeJob(memory, task, places);
    const barrier = helpers > 0 ? new Barrier(memory.shared, places.barrier) : undefined;
    if (barrier) {
        await invite(invitationsTo(memory, layout, places));
    }
    try {
        await fill(memory, layout, barrier, helpers, report);
        return finish(memory, layout, places, task.encoded !== undefined);
    } finally {
        barrier?.close();
    }
}

/**
 * Runs a task in a memory, or in the memory of a promise, and returns its code and the tag of a hash. `invite` asks
 * helpers to join the memory, and waits for them. The inputs and the memory are overwritten.
 */
export async function run(opened, task, company) {
    let memory;
    try {
        memory = await opened;
        return await computeOver(memory, task, company);
    } catch (error) {
        if (error instanceof Rejected) {
            return { code: error.code };
        }
        throw error;
    } finally {
        task.inputs.clear();
        memory?.clear();
    }
}
