/** What runs the program, as types: as native code of this system (terminal/), or as WebAssembly (engine/). */

/** @typedef {object} Job a run of the program. With `files` it is over these alone, by the names in `words`; without, over the
 * system's own files
 * @property {string[]} words the program's words
 * @property {Map<string, Uint8Array>} [files]
 * @property {(name: string, piece: Uint8Array) => void} [seen] gets each piece that the run writes into a file
 * @property {AbortSignal} [signal] stops the run */

/** @typedef {object} Ran how a run ended
 * @property {number} status
 * @property {Uint8Array} output what it printed
 * @property {Map<string, Uint8Array>} files of a run over files, those that it wrote
 * @property {number} seconds how long it took
 * @property {boolean} wasStopped whether its signal stopped it */

/** @typedef {object} Engine
 * @property {"native" | "wasm"} kind
 * @property {(job: Job) => Promise<Ran>} run */

export {};
