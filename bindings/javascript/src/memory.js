// A memory with an instance of the proved module. It holds what calls are passed, and is overwritten after them.
import { copyOf } from './bytes.js';
import { OUT_OF_MEMORY, Rejected, deniedOr } from './codes.js';

const PAGE = 65536;
/** The size of an instance's stack, PROVED_ARGON2_STACK_SIZE. The default stack is at the start of the memory. */
export const STACK = 65536;
/** The maximum size that the shared module declares for its memory: 4 GiB. */
const MAX_SHARED_PAGES = 65536;
const SMALLEST = 4;

/** A place in a memory, as calls take it: the address of the first element, and the number of elements. */
export class Place {
    constructor(at, length) {
        this.at = at;
        this.length = length;
    }
}

/** The address of a structure, for calls that take one. */
export const pointer = (place) => BigInt(place.at);

/** A memory that workers can share. If a phone's address space is too small for the maximum, that is lowered. */
function makeShared() {
    for (let maximum = MAX_SHARED_PAGES; maximum >= SMALLEST; maximum /= 2) {
        try {
            return new WebAssembly.Memory({ initial: SMALLEST, maximum, shared: true });
        } catch (error) {
            if (!(error instanceof RangeError)) {
                throw error;
            }
        }
    }
    throw new Rejected(OUT_OF_MEMORY);
}

/** The module for shared memories is the one that imports its memory. */
const importsMemory = (module) => WebAssembly.Module.imports(module).length > 0;

export class Memory {
    #exports;
    #memory;
    #base;
    #top;

    constructor(instance, memory) {
        this.#exports = instance.exports;
        this.#memory = memory;
        this.#base = Math.ceil(Number(this.#exports.__heap_base.value) / 16) * 16;
        this.#top = this.#base;
    }

    /** A new memory. Other workers can join it if the module is the one for shared memories. */
    static async open(module) {
        const memory = importsMemory(module) ? makeShared() : undefined;
        try {
            const instance = await WebAssembly.instantiate(module, { env: { memory } });
            return new Memory(instance, memory ?? instance.exports.memory);
        } catch (error) {
            throw deniedOr(error);
        }
    }

    /** Joins the memory of another worker, with a stack of its own in it. */
    static async join(module, memory, stack) {
        const instance = await WebAssembly.instantiate(module, { env: { memory } });
        instance.exports.__stack_pointer.value = BigInt(stack.at + stack.length);
        return new Memory(instance, memory);
    }

    /** The memory that another worker can join. */
    get shared() {
        return this.#memory;
    }

    get size() {
        return this.#memory.buffer.byteLength;
    }

    /** Takes a place for some elements of a size in bytes. Bytes that no earlier place had are zero. */
    take(length, size = 1) {
        const alignment = size === 1 ? 16 : size;
        const at = Math.ceil(this.#top / alignment) * alignment;
        // (A place of no bytes needs an address too.)
        this.#reach(at + length * size + 1);
        this.#top = at + length * size;
        return new Place(at, length);
    }

    #reach(end) {
        const pages = Math.ceil((end - this.size) / PAGE);
        if (pages > 0) {
            try {
                this.#memory.grow(pages);
            } catch (error) {
                throw deniedOr(error);
            }
        }
    }

    write(place, bytes) {
        this.view(place).set(bytes);
    }

    /** Copies arrays into the memory. All places are taken first, since an engine may copy a memory that grows. */
    putAll(pieces) {
        const places = pieces.map((bytes) => this.take(bytes.length));
        places.forEach((place, i) => this.write(place, pieces[i]));
        return places;
    }

    put(bytes) {
        return this.putAll([bytes])[0];
    }

    /** Copies numbers of 32 bits into the memory. */
    putNumbers(numbers) {
        return this.put(new Uint8Array(Uint32Array.from(numbers).buffer));
    }

    view(place) {
        return new Uint8Array(this.#memory.buffer, place.at, place.length);
    }

    /** The numbers of 32 bits at a place. */
    numbersAt({ at }, count) {
        return [...new Uint32Array(this.#memory.buffer, at, count)];
    }

    /** A copy of the bytes at a place. */
    read(place) {
        try {
            return copyOf(this.view(place));
        } catch (error) {
            throw deniedOr(error);
        }
    }

    /** Makes a call, and returns its result. A place is passed as an address and a length. */
    call(name, ...values) {
        const passed = values.flatMap((value) =>
            (value instanceof Place ? [BigInt(value.at), BigInt(value.length)] : value));
        return this.#exports[`proved_argon2_${name}`](...passed);
    }

    /** Overwrites all places that were taken since the memory was opened or cleared, and the stack. */
    clear() {
        this.#overwrite(0, STACK);
        this.#overwrite(this.#base, this.#top);
        this.#top = this.#base;
    }

    /** Overwrites one place. */
    clearPlace({ at, length }) {
        this.#overwrite(at, at + length);
    }

    /** Overwrites by words, since an engine may write shared bytes one by one. Places of bytes are aligned to words. */
    #overwrite(from, to) {
        new BigUint64Array(this.#memory.buffer, from, Math.ceil((to - from) / 8)).fill(0n);
    }
}
