/** What a run of the launcher is given: where railplan is, how it is called, what runs the program, and what stops the run. */

/** @typedef {{state: "proved" | "unproved" | "unknown", sha256: string, kit: string}} Build what is known of the program:
 * whether it was proved, and by which kit; a program that something else built is `unknown` */

/** @typedef {object} Context
 * @property {string} top the folder that has shell/ in it
 * @property {string} called how the launcher is called, to be typed again
 * @property {import("../both/engine.js").Engine} engine
 * @property {Build} build
 * @property {string} wasm the program as WebAssembly, which pages carry, or "" where it isn't there
 * @property {AbortSignal} signal stops the run: an interrupt, an end, a lost terminal or a quit */

export {};
