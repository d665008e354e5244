/**
 * What makes a page alive: search, choosing, zoom, the keyboard, and texts to be saved. It fetches nothing, and writes text
 * alone.
 */
import { Choice, keyOf, mark, targetOf } from "./choosing.js";
import { save, svgText } from "./saving.js";
import { every, one } from "./tree.js";
import { Strips } from "./zoom.js";

/** @typedef {import("../both/page/whole.js").Known} Known */

/** @type {Map<string, [number, number]>} */
const ARROWS = new Map([["ArrowLeft", [-0.1, 0]], ["ArrowRight", [0.1, 0]], ["ArrowUp", [0, -0.1]], ["ArrowDown", [0, 0.1]]]);
const TYPES = { csv: "text/csv", dxf: "image/vnd.dxf", sheet: "text/plain" };

/** The search in the list, and what keys and buttons do. */
class Work {
    /** @param {Known} known */
    constructor(known) {
        this.known = known;
        this.strips = new Strips();
        this.choice = new Choice(known, this.strips);
        this.rows = this.choice.rows;
        this.find = /** @type {HTMLInputElement} */ (one(".find"));
        /** @type {(kind: keyof TYPES) => () => void} */
        const saving = (kind) => () => save(`${known.name}.${kind}`, TYPES[kind], known.save[kind]());
        /** @type {Map<string, () => void>} what buttons do */
        this.deeds = new Map([["in", () => this.strips.current?.zoom(1 / 1.4)], ["out", () => this.strips.current?.zoom(1.4)],
            ["home", () => this.strips.showAll()], ["let", () => this.choice.letGo()],
            ["grid", () => { document.body.classList.toggle("with-grid"); }],
            ["svg", () => save(`${known.name}.svg`, "image/svg+xml", svgText(this.strips.all))],
            ["csv", saving("csv")], ["dxf", saving("dxf")], ["sheet", saving("sheet")]]);
        /** @type {Map<string, (() => void) | undefined>} what keys do */
        this.keys = new Map([["/", () => this.find.focus()], ["n", () => this.next(1)], ["N", () => this.next(-1)],
            ["Escape", this.deeds.get("let")], ["+", this.deeds.get("in")], ["-", this.deeds.get("out")],
            ["0", this.deeds.get("home")], ["g", this.deeds.get("grid")]]);
    }

    /** @returns {HTMLElement[]} the rows that the search leaves */
    get left() {
        return this.rows.filter((it) => !it.hidden);
    }

    search() {
        const words = this.find.value.toLowerCase().split(/\s+/);
        for (const row of this.rows) row.hidden = !words.every((word) => row.textContent?.toLowerCase().includes(word));
        mark("over", this.find.value ? this.left.slice(0, 1).map((it) => it.dataset.key ?? "") : []);
    }

    /** @param {number} by chooses the row so many behind the chosen one */
    next(by) {
        const left = this.left;
        const at = left.findIndex((it) => it.dataset.key === this.choice.chosen);
        const row = at >= 0 ? left[(at + by + left.length) % left.length] : by > 0 ? left[0] : left[left.length - 1];
        if (!row) return;
        this.choice.choose(row.dataset.key ?? "", true);
        row.scrollIntoView({ block: "nearest" });
    }

    listen() {
        this.strips.listen();
        document.addEventListener("click", (event) => {
            const [deed, key] = [targetOf(event).closest("[data-do]")?.getAttribute("data-do"), keyOf(event)];
            if (deed) this.deeds.get(deed)?.();
            else if (key) this.choice.choose(key, targetOf(event).closest("aside") !== null);
        });
        this.find.addEventListener("input", () => this.search());
        this.find.addEventListener("keydown", (event) => this.#typed(event));
        addEventListener("hashchange", () => this.choice.chooseByLink());
    }

    /** @param {KeyboardEvent} event a key in the search */
    #typed({ key }) {
        if (key !== "Enter" && key !== "Escape") return;
        if (key === "Enter") {
            this.choice.chosen = null;
            this.next(1);
        } else {
            this.find.value = "";
            this.search();
        }
        this.find.blur();
    }

    /** @param {string} key @param {HTMLElement | null} row the row that has the keyboard @returns {boolean} whether the key
     * does something */
    press(key, row) {
        const [arrow, strip] = [ARROWS.get(key), this.strips.current];
        if (row && (key === "ArrowDown" || key === "ArrowUp")) {
            const to = this.left[this.left.indexOf(row) + (key === "ArrowDown" ? 1 : -1)];
            this.choice.rove(to ?? row);
            to?.focus();
        } else if (row && (key === "Enter" || key === " ")) this.choice.choose(row.dataset.key ?? "", true);
        else if (arrow && strip?.isZoomed) strip.pan(...arrow);
        else if (this.keys.get(key)) this.keys.get(key)?.();
        else return false;
        return true;
    }
}

/** Shows the drawing of a front that the page's address names. */
function showChoice() {
    const wanted = decodeURIComponent(location.hash.slice(1));
    const choices = every("figure.choice");
    const shown = choices.find((it) => it.id === wanted) ?? choices.find((it) => it.classList.contains("shown")) ?? choices[0];
    for (const it of choices) it.classList.toggle("shown", it === shown);
    for (const it of every("svg.plot a")) {
        const isShown = decodeURIComponent(it.getAttribute("href")?.slice(1) ?? "") === shown.id;
        one(".pair", it)?.classList.toggle("shown", isShown);
    }
}

/** The parties of a law light up with it. */
function listenToLaws() {
    /** @type {(event: Event) => void} */
    const lit = (event) => {
        const law = targetOf(event).closest(".law");
        for (const it of every(".law")) it.classList.toggle("lit", it === law);
        mark("lit", law?.getAttribute("data-parties")?.split(" ") ?? []);
    };
    for (const name of ["pointerover", "focusin", "click"]) document.addEventListener(name, lit);
}

/**
 * Makes the page alive that is in the document.
 * @param {Known | null} known
 */
export function makeAlive(known) {
    const work = known && new Work(known);
    for (const name of ["pointerover", "focusin"]) {
        document.addEventListener(name, (event) => {
            const key = keyOf(event);
            if (key || name === "pointerover") mark("over", key ? [key] : []);
        });
    }
    addEventListener("keydown", (event) => {
        if (targetOf(event).closest("input, pre") || event.ctrlKey || event.metaKey || event.altKey) return;
        const row = /** @type {HTMLElement | null} */ (targetOf(event).closest("aside.list tbody tr"));
        if (work?.press(event.key, row)) event.preventDefault();
    });
    if (every(".law").length) listenToLaws();
    if (every("figure.choice").length) {
        document.body.classList.add("front-alive");
        addEventListener("hashchange", showChoice);
        showChoice();
    }
    work?.listen();
    work?.choice.chooseByLink();
}
