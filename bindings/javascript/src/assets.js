// The other files of the package, which lie beside this one. The file `proved-argon2/inline` contains them instead.
import { fileOf, readFile } from './platform.js';

// (Each address is written out where it is used, so that bundlers find the files.)

/** The bytes of a WebAssembly module. */
export const readModule = (isShared) => readFile(isShared
    ? new URL('./proved_argon2_shared.wasm', import.meta.url)
    : new URL('./proved_argon2.wasm', import.meta.url));

/** A new worker of a page. */
export const newPageWorker = () => new Worker(new URL('./worker.js', import.meta.url), { type: 'module' });

/** A new worker of Node. */
export const newThread = (Thread, options) => new Thread(new URL('./worker.js', import.meta.url), options);

/** Where an addon of Node is. */
export const addonFile = (name) => fileOf(new URL(name, import.meta.url));
