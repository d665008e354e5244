/**
 * Choosing of an object: what is said of it, what lights up with it, and the path between two signals.
 */
import { pathBetween } from "../both/page/paths.js";
import { every, one } from "./tree.js";

/** @typedef {import("../both/page/whole.js").Known} Known */
/** @typedef {[string, string, string?]} Said a term, what is said, and the key of an object to which it leads */

/** @type {(event: Event) => Element} what an event is of */
export const targetOf = (event) => event.target instanceof Element ? event.target : document.documentElement;

/** @type {(event: Event) => string | null} the key of the object that an event is of */
export const keyOf = (event) => targetOf(event).closest("[data-key]")?.getAttribute("data-key") ?? null;

/**
 * Gives a mark to these objects and to no other.
 * @param {string} name
 * @param {Iterable<string>} keys
 */
export function mark(name, keys) {
    for (const it of every(`.${name}[data-key]`)) it.classList.remove(name);
    for (const key of keys) for (const it of every(`[data-key="${CSS.escape(key)}"]`)) it.classList.add(name);
}

/** @param {string} tag @param {string} words @returns {HTMLElement} */
function text(tag, words) {
    const made = document.createElement(tag);
    made.textContent = words;
    return made;
}

/** What is chosen on a page. */
export class Choice {
    /** @param {Known} known @param {import("./zoom.js").Strips} strips */
    constructor(known, strips) {
        this.known = known;
        this.strips = strips;
        this.rows = every("aside.list tbody tr");
        this.said = /** @type {HTMLElement} */ (one(".said"));
        this.advice = [...this.said.children];
        /** @type {string | null} */
        this.chosen = null;
        /** @type {string | null} a signal from which a path may lead */
        this.firstSignal = null;
        this.rove(this.rows[0]);
    }

    /** @param {string} key @returns {string} */
    #label(key) {
        const it = this.known.objects.get(key);
        return it ? it.name || it.id : key;
    }

    /** @param {string} title @param {Said[]} facts */
    #say(title, facts) {
        const list = document.createElement("dl");
        for (const [term, words, leads] of facts) {
            const to = leads && this.known.objects.get(leads);
            const link = to && Object.assign(text("a", words), { href: `#${encodeURIComponent(to.link)}` });
            const said = text("dd", link ? "" : words);
            if (link) said.append(link);
            list.append(text("dt", term), said);
        }
        const button = Object.assign(text("button", "×"), { title: "let go (Esc)", ariaLabel: "let go" });
        button.dataset.do = "let";
        this.said.replaceChildren(button, text("h2", title), list);
        this.said.scrollTop = 0;
    }

    /** @param {string} key */
    #sayOf(key) {
        const it = this.known.objects.get(key);
        if (!it) return;
        /** @type {Said[]} */
        const facts = [["name", it.name], ["id", it.id], ["kind", it.kind], ["km", it.km]];
        this.#say(`${this.#label(key)}: ${it.kind}`, [...facts.filter(([, words]) => words), ...it.facts]);
    }

    /** @param {string} key @returns {string[]} what lights up with an object */
    #related(key) {
        const leads = (this.known.objects.get(key)?.facts ?? []).map(([, , to]) => to).filter(Boolean);
        const pieces = [...this.known.edges].filter(([, ends]) => ends.includes(key)).map(([edge]) => edge);
        return [...leads, ...pieces];
    }

    /** Nothing is chosen any more. */
    letGo() {
        this.chosen = null;
        this.firstSignal = null;
        for (const name of ["chosen", "related", "path"]) mark(name, []);
        this.said.replaceChildren(...this.advice);
        history.replaceState(null, "", location.pathname + location.search);
    }

    /** @param {string} key @param {boolean} isFromList */
    choose(key, isFromList) {
        const it = this.known.objects.get(key);
        if (!it) return;
        const [isSignal, before] = [this.known.signals.has(key), this.firstSignal];
        this.chosen = key;
        mark("chosen", [key]);
        mark("path", []);
        mark("related", this.#related(key));
        if (isSignal && before && before !== key) this.#showPath(before, key);
        else this.#sayOf(key);
        this.firstSignal = isSignal ? key : null;
        history.replaceState(null, "", `#${encodeURIComponent(it.link)}`);
        const row = this.rows.find((other) => other.dataset.key === key);
        // on a narrow screen the list is below, and what is said lies over the page's foot
        if (!isFromList && matchMedia("(min-width: 1001px)").matches) row?.scrollIntoView({ block: "nearest" });
        this.rove(row);
        if (isFromList) this.#fly(key);
    }

    /** Chooses what the page's address names. */
    chooseByLink() {
        const wanted = decodeURIComponent(location.hash.slice(1));
        const [key] = [...this.known.objects].find(([, it]) => it.link === wanted) ?? [];
        if (key !== undefined) this.choose(key, true);
    }

    /** @param {HTMLElement | undefined} row the one that the keyboard gets to */
    rove(row) {
        for (const it of this.rows) it.tabIndex = it === row ? 0 : -1;
    }

    /** @param {string} key */
    #fly(key) {
        const found = this.strips.find(".sign[data-key], .lines > [data-key]", key);
        if (!found) return;
        this.strips.current = found.strip;
        found.strip.flyTo(one(".edge", found.thing) ?? found.thing);
    }

    /** @param {string} from @param {string} to */
    #showPath(from, to) {
        const there = pathBetween(this.known, from, to);
        const path = there ?? pathBetween(this.known, to, from);
        const [first, last] = (there ? [from, to] : [to, from]).map((it) => this.#label(it));
        mark("related", []);
        if (!path) {
            this.#say(`No path between ${this.#label(from)} and ${this.#label(to)}`,
                [["", "No train that passes one of them gets to the other without turning back."]]);
            return;
        }
        mark("path", [from, to, ...path.pieces, ...path.nodes.map(([node]) => node)]);
        const switches = path.nodes.filter(([, position]) => position)
            .map(([node, position]) => /** @type {Said} */ (["switch", `${this.#label(node)} ${position}`, node]));
        const pieces = path.pieces.map((edge) => {
            const [west, east] = (this.known.edges.get(edge) ?? []).map((it) => this.#label(it));
            return /** @type {Said} */ (["piece", `${this.#label(edge)}, ${west} – ${east}`, edge]);
        });
        this.#say(`Path from ${first} to ${last}`, [...switches.length ? switches
            : [/** @type {Said} */ (["switches", "none"])], ...pieces]);
    }
}
