/** What stops a run: an interrupt, an end, a lost terminal and a quit, so that it leaves no files and no programs. */
import { constants } from "node:os";

export const STOPPING = ["SIGINT", "SIGTERM", "SIGHUP", "SIGQUIT"];
// those that a run was started to ignore stay ignored: under nohup a lost terminal stops nothing, behind a shell's & a quit
const HEARD_UNLESS_IGNORED = ["SIGHUP", "SIGQUIT"];

/**
 * whether a signal is one that stops a run
 * @param {string | null} name @returns {boolean}
 */
export function isStopping(name) {
    return name !== null && STOPPING.includes(name);
}

/**
 * the number of a signal
 * @param {string} name @returns {number}
 */
export function numberOf(name) {
    return constants.signals[/** @type {NodeJS.Signals} */ (name)];
}

/**
 * Which signals this run was started to ignore, of those that it may ignore. Node forgets them at its start, so the launcher's
 * first lines hand them on, as the system shows them: a mask in hexadecimal digits.
 * @param {string} mask
 * @returns {string[]}
 */
export function ignoredOf(mask) {
    const bits = /^[0-9a-f]{1,16}$/.test(mask) ? BigInt(`0x${mask}`) : 0n;
    return HEARD_UNLESS_IGNORED.filter((name) => bits >> BigInt(numberOf(name) - 1) & 1n);
}

/**
 * Listens to all that stops a run. The first one counts, and a further one doesn't disturb the end.
 * @param {string[]} ignored
 * @returns {AbortSignal}
 */
export function listen(ignored) {
    process.removeAllListeners("SIGINT");
    const stopper = new AbortController();
    for (const name of STOPPING) {
        process.on(name, ignored.includes(name) ? () => undefined : () => stopper.abort());
    }
    return stopper.signal;
}
