// Bytes that a caller passes. They are copied at once. Their lengths are read by the language's own getters, which a
// caller cannot override.

const TypedArray = Object.getPrototypeOf(Uint8Array.prototype);

/** A getter of the language, as a function of the object that it reads. */
function getterOf(prototype, name) {
    const { get } = Object.getOwnPropertyDescriptor(prototype, name);
    return (value) => get.call(value);
}

const PARTS = ['buffer', 'byteOffset', 'byteLength'];
const gettersOf = (prototype) => PARTS.map((name) => getterOf(prototype, name));
const ofTypedArray = gettersOf(TypedArray);
const ofDataView = gettersOf(DataView.prototype);
const kindOf = getterOf(TypedArray, Symbol.toStringTag);
const lengthOfBuffer = getterOf(ArrayBuffer.prototype, 'byteLength');
const { keys: requireInBounds } = TypedArray;
/** The maximum number of bytes that a UTF-16 code unit takes in UTF-8. */
const MOST_BYTES_OF_UNIT = 3;

/** Allocates bytes outside the engine's heap, since the garbage collector moves what is on it and leaves copies. */
export const allocate = (length) => new Uint8Array(new ArrayBuffer(length));

export function copyOf(bytes) {
    const copy = allocate(bytes.length);
    copy.set(bytes);
    return copy;
}

/** The bytes of a view or a buffer. Throws a TypeError for anything else, and for detached or out-of-bounds bytes. */
function viewOf(value) {
    if (!ArrayBuffer.isView(value)) {
        return new Uint8Array(value, 0, lengthOfBuffer(value));
    }
    if (kindOf(value) !== undefined) {
        requireInBounds.call(value);
    }
    const getters = kindOf(value) === undefined ? ofDataView : ofTypedArray;
    return new Uint8Array(...getters.map((get) => get(value)));
}

const BYTES = 'bytes: a typed array, a DataView or an ArrayBuffer, neither detached nor out of bounds';

/** A copy of the bytes that a caller passes. */
export function bytesOf(name, value, expected = BYTES) {
    try {
        return copyOf(viewOf(value));
    } catch (error) {
        // (without its `cause`, whose message contains the value: it may be a password or a key of a wrong type)
        throw error instanceof TypeError ? new TypeError(`'${name}' has to be ${expected}`) : error;
    }
}

/**
 * A password as bytes; a string is encoded in UTF-8. Half of a surrogate pair has no UTF-8: it is rejected, since an
 * encoder would replace it, and different passwords would become the same bytes.
 */
export function passwordOf(value) {
    if (typeof value !== 'string') {
        return bytesOf('password', value, `a string or ${BYTES}`);
    }
    if (/\p{Surrogate}/u.test(value)) {
        throw new TypeError("'password' has to be well-formed Unicode");
    }
    const most = allocate(MOST_BYTES_OF_UNIT * value.length);
    return most.subarray(0, new TextEncoder().encodeInto(value, most).written);
}

/** The inputs of a hash. They are overwritten as soon as the job is made from them, unless another hash needs them. */
export class Inputs {
    isKept = false;

    constructor({ password, salt, secret, associatedData }) {
        Object.assign(this, { password, salt, secret, associatedData });
    }

    /** The buffers to move to a worker, so that no copy stays here: all but the salt, which is not secret. */
    get moved() {
        return this.isKept ? [] : [this.password, this.secret, this.associatedData].map((bytes) => bytes.buffer);
    }

    clear() {
        if (this.isKept) {
            return;
        }
        for (const bytes of [this.password, this.salt, this.secret, this.associatedData]) {
            // (A buffer that was moved to a worker has no bytes left here.)
            if (bytes?.length > 0) {
                bytes.fill(0);
            }
        }
    }
}
