/**
 * What a page finds of itself when it is opened: its file, sheet and hints, judged by the program that it carries. Of itself it
 * can show no more, and it says so: a script or a program that somebody changed can say what it likes.
 */
import { unpacked } from "../both/packing.js";
import { inWords, judgePage, sheetOf } from "../both/page/page_check.js";
import { engineOf, sha256 } from "./desk_engine.js";
import { one } from "./tree.js";

const MORE = "A page can show no more of itself: railplan check-page judges it by your own program.";

/** @param {string} kind @returns {string} the text of a script that is data */
function carried(kind) {
    return JSON.parse(one(`script.${kind}`)?.textContent || '""');
}

/** what is shown in the place of the badges of a page that isn't so */
function notSo() {
    const badge = document.createElement("span");
    badge.className = "badge broken";
    badge.textContent = "this page isn't what it says";
    return badge;
}

/** @param {import("../both/page/run.js").RunRecord} record */
export async function checkSelf(record) {
    const place = one(".checked"), program = carried("program");
    if (!place) return;
    if (![0, 3, 4, 8].includes(record.status) || !record.inputs[0]?.content) {
        place.textContent = "Not checked here: this page has no answer over a file that it carries.";
        document.body.dataset.checked = "open";
        return;
    }
    if (!program) {
        place.textContent = "Not checked here: this page doesn't carry the program. railplan check-page judges it by your own program.";
        return;
    }
    place.textContent = "Being checked by the program that this page carries ..";
    try {
        const wasm = await unpacked(program), hints = carried("hints"), engine = engineOf(await WebAssembly.compile(wasm), carried("worker"));
        const verdict = await judgePage(record, hints ? await unpacked(hints) : null, engine, sha256);
        engine.close();
        const isSound = verdict.findings.every((it) => it.isRight);
        const judged = sheetOf(record) || !isSound ? inWords(record, verdict) : "checked here: the file and its track graph";
        const said = `${judged}. Not judged: ${verdict.open.join("; ")}`;
        document.body.classList.toggle("unsound", !isSound);
        if (!isSound) document.querySelector(".badges")?.replaceChildren(notSo());
        place.textContent = `${said}. The program: WebAssembly, SHA-256 ${await sha256(wasm)}. ${MORE}`;
        document.body.dataset.checked = isSound ? "right" : "wrong";
    } catch (error) {
        place.textContent = `It couldn't be checked here: ${error instanceof Error ? error.message : error}. ${MORE}`;
        document.body.dataset.checked = "open";
    }
}
