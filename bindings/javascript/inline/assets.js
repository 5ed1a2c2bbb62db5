// The other files of the package, which inline/make.py puts in front of this text: the source of the worker, and both
// modules in base64.

/** The bytes of a module. */
export function readModule(isShared) {
    return Uint8Array.from(atob(isShared ? SHARED_MODULE : OWN_MODULE), (character) => character.charCodeAt(0));
}

let address;

/** A new worker of a page. */
export function newPageWorker() {
    address ??= URL.createObjectURL(new Blob([WORKER], { type: 'text/javascript' }));
    return new Worker(address);
}

/** A new worker of Node. */
export const newThread = (Thread, options) => new Thread(WORKER, { ...options, eval: true });

/** Where an addon of Node is: beside this file, where Node loads it as CommonJS. */
export const addonFile = (name) => `${__dirname}/${name}`;
