/** What a page carries, taken out of its text: its run and its hinted lines; and the script that shows them. */
import { unpacked } from "../packing.js";
import { recordOf } from "./record.js";

/** @typedef {object} Carried
 * @property {import("./run.js").RunRecord} record its run
 * @property {Uint8Array | null} hints its hinted lines, where it has any
 * @property {Uint8Array | null} program the program as WebAssembly, where it has it
 * @property {string} script the script that draws it
 * @property {string} before all of the page's text before what it carries
 * @property {{data: string, program: string, worker: string, hints: string}} packed each as it is in the page; "" for what isn't there */

const DATA = (/** @type {string} */ kind) => `(?:<script type="application/json" class="${kind}">("(?:[^"<\\\\]|\\\\.)*")</script>)`;
/** the end of a page: its data one behind the other, then its one script, and nothing behind that */
const END = new RegExp(`${DATA("data")}${DATA("program")}?${DATA("worker")}?${DATA("hints")}?<script>([^]*)</script></body></html>\\n$`);
/** what no page has before its data: a script, a remark, or anything that could hide what comes */
const ACTIVE = /<(script|!--|iframe|object|embed|base|template|textarea|xmp|plaintext|noscript)/i;

/**
 * @param {string} page the page's text
 * @returns {Promise<Carried | null>} nothing where it isn't built as pages are, or what it carries can't be read
 */
export async function carriedBy(page) {
    const found = END.exec(page);
    if (!found || ACTIVE.test(page.slice(0, found.index)) || found[5].includes("</script")) {
        return null;
    }
    try {
        const [data, program, worker, hints] = found.slice(1, 5).map((it) => (it ? String(JSON.parse(it)) : ""));
        return {
            record: recordOf(new TextDecoder("utf-8", { ignoreBOM: true }).decode(await unpacked(data))), hints: hints ? await unpacked(hints) : null,
            program: program ? await unpacked(program) : null, script: found[5], before: page.slice(0, found.index),
            packed: { data, program, worker, hints },
        };
    } catch {
        return null;
    }
}
