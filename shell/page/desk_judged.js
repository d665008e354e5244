/** A page that somebody else made, judged on the desk: what is right, wrong and open, and what its run shows, drawn by this desk. */
import { Unjudged } from "../both/page/page_check.js";
import { judgeWhole, shownBy } from "../both/page/same_page.js";
import { sha256 } from "./desk_engine.js";
import { framed, hashesOf } from "./desk_page.js";
import { element } from "./elements.js";

/** @typedef {import("../both/page/same_page.js").Judgement} Judgement */

const PAGE = /^\s*<!DOCTYPE html/i;
const NO_PAGE = "This isn't built as railplan builds pages, or it was changed. So nothing of it is judged.";

/**
 * Whether a file is a page, and no railML.
 * @param {Uint8Array} bytes
 */
export function isPage(bytes) {
    return PAGE.test(new TextDecoder().decode(bytes.subarray(0, 200)));
}

/**
 * What this desk's pages are made of.
 * @param {import("./desk_page.js").Maker} maker
 * @param {string} paper
 */
async function ownOf({ parts, program }, paper) {
    return { ...parts, program, hashOf: await hashesOf(parts, paper) };
}

/**
 * @param {string} name
 * @param {Judgement} judged
 */
function listed(name, { lines, said }) {
    const isWrong = lines.some(([word]) => word === "wrong");
    return [element("p", { class: isWrong ? "said bad" : "said" }, `${name}: ${said}`),
        element("ul", { class: "judged" }, ...lines.map(([word, what]) => element("li", { class: word }, element("b", {}, word), ` ${what}`))),
        element("p", {}, "Right and wrong are this desk's own findings. What is open nobody judged.")];
}

/**
 * Judges a page.
 * @param {string} name
 * @param {Uint8Array} bytes
 * @param {import("../both/engine.js").Engine} engine
 * @param {import("./desk_page.js").Maker} maker
 * @returns {Promise<{shown: HTMLElement[], judged: Judgement | null}>} what is shown, and the judgement where there is one
 */
export async function judgedPage(name, bytes, engine, maker) {
    const text = new TextDecoder("utf-8", { ignoreBOM: true }).decode(bytes);
    try {
        const judged = await judgeWhole(text, (wanted) => ownOf(maker, wanted), engine, sha256);
        if (!judged) {
            return { shown: [element("p", { class: "said bad" }, `${name}: ${NO_PAGE}`)], judged };
        }
        const page = shownBy(judged.carried, await ownOf(maker, judged.carried.record.settings.paper));
        const caption = element("h3", {}, "What its run shows, drawn by this desk");
        return { shown: [...listed(name, judged), ...(page ? [caption, framed(page, `The page of ${name}, drawn anew`)] : [])], judged };
    } catch (error) {
        if (!(error instanceof Unjudged)) throw error;
        return { shown: [element("p", { class: "said bad" }, `${name} couldn't be judged: ${error.message}.`)], judged: null };
    }
}
