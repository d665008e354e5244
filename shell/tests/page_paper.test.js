/** What a page's style says of paper: its size, what isn't printed, and that nothing is cut off or torn. */
import assert from "node:assert/strict";
import { test } from "node:test";
import { EDGE, PAPERS } from "../both/page/columns.js";
import { stylesOf } from "../both/page/written.js";
import { stylesIn } from "../terminal/bundle.js";
import { TOP } from "./pages/runs.js";

/** @typedef {{medium: string, selector: string, said: Map<string, string>}} Rule */

/** @type {(paper: string) => string} */
const styleOf = (paper) => stylesOf(stylesIn(TOP), paper)[0];

/**
 * Each rule of a style: the medium that it is for, which is empty for all, a selector, and what it says.
 * @param {string} style
 * @returns {Rule[]}
 */
function rulesOf(style) {
    let medium = "";
    return [...style.matchAll(/@media ([^{]*?) \{|([^{}]+) \{([^{}]*)\}|\}/g)].flatMap(([, opened, selectors, said]) => {
        if (!selectors) {
            medium = opened ?? "";
            return [];
        }
        const parts = said.split(";").filter((it) => it.trim()).map((it) =>
            /** @type {[string, string]} */ (it.trim().split(": ", 2)));
        return selectors.split(",").map((it) => ({ medium, selector: it.trim(), said: new Map(parts) }));
    });
}

/** @param {string} style @returns {Map<string, Map<string, string>>} what the rules say of each selector where the medium is no
 * screen: a later rule goes before an earlier one */
function onPaper(style) {
    const found = new Map();
    for (const { medium, selector, said } of rulesOf(style)) {
        if (!medium.startsWith("screen")) found.set(selector, new Map([...found.get(selector) ?? [], ...said]));
    }
    return found;
}

const rules = onPaper(styleOf("A3"));

/** @param {string} selector @param {{[name: string]: string}} wanted @param {Map<string, Map<string, string>>} [among] */
function says(selector, wanted, among = rules) {
    const found = Object.fromEntries(Object.keys(wanted).map((it) => [it, among.get(selector)?.get(it)]));
    assert.deepEqual(found, wanted, selector);
}

test("each paper has its size, and the edge that pictures leave", () => {
    for (const [paper, [wide, high]] of PAPERS) {
        const found = onPaper(styleOf(paper));
        says("@page", { size: `${wide}mm ${high}mm`, margin: `${EDGE}mm` }, found);
        says("body", { padding: "0" }, found);
    }
    assert.throws(() => styleOf("A9"), /there is no paper A9/);
});

test("the list comes below the drawing, in columns", () => {
    says(".work", { display: "block" });
    says(".list", { position: "static", columns: "82mm" });
});

test("two panels and what is between them fill the paper", () => {
    says(".panels", { gap: "4mm" });
    says("figure.panel", { "flex-basis": "calc(50% - 2mm)" });
    says("figure.panel:only-child", { "flex-basis": "100%" });
});

test("what works on a screen alone isn't printed", () => {
    for (const it of [".tools", ".screen", ".said", "details"]) says(it, { display: "none" });
});

test("what scrolls on a screen is whole on paper", () => {
    says(".canvas", { overflow: "visible" });
    says(".list", { overflow: "visible", "max-height": "none" });
});

test("what belongs together isn't torn", () => {
    for (const it of ["figure.panel", "figure.version", ".canvas", ".legend", ".facts", ".block", ".list", ".list tr"]) {
        says(it, { "break-inside": "avoid" });
    }
    says("figcaption", { "break-before": "avoid" });
});

test("paper is light and has each drawing of a front", () => {
    says(":root", { "--ink": "#000", "--paper": "#fff" });
    const hidden = "body.front-alive figure.choice:not(.shown)";
    assert.ok(rulesOf(styleOf("A3")).some(({ medium, selector, said }) =>
        medium === "screen" && selector === hidden && said.get("display") === "none"));
    assert.ok(!rules.has(hidden));
});
