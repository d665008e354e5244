/**
 * Zoom and pan: what is placed at a point keeps its size.
 */
import { every } from "./tree.js";

/** @typedef {[number, number, number, number]} View a part of a picture: its left and upper side, its width and height */

/** A drawing's strip that can be enlarged. */
export class Strip {
    /** @param {SVGSVGElement} svg */
    constructor(svg) {
        this.svg = svg;
        const { x, y, width, height } = svg.viewBox.baseVal;
        /** @type {View} */
        this.home = [x, y, width, height];
        this.view = this.home;
        this.things = every(".tag, .sign", svg).map((it) => ({ it, place: it.getAttribute("transform") ?? "" }));
    }

    get isZoomed() {
        return this.view[2] !== this.home[2];
    }

    /** @param {View} view */
    show(view) {
        const scale = view[2] / this.home[2];
        this.view = view;
        this.svg.setAttribute("viewBox", view.map((it) => it.toFixed(2)).join(" "));
        for (const { it, place } of this.things) it.setAttribute("transform", scale === 1 ? place
            : `${place} scale(${scale.toFixed(4)})`);
        this.svg.classList.toggle("zoomed", this.isZoomed);
    }

    showAll() {
        this.show(this.home);
    }

    /**
     * Enlarges the picture around a place.
     * @param {number} factor less than one where it gets larger
     * @param {{x: number, y: number}} [place]
     */
    zoom(factor, place) {
        const [left, top, width, height] = this.view;
        const { x, y } = place ?? { x: left + width / 2, y: top + height / 2 };
        const by = Math.max(Math.min(factor, this.home[2] / width), this.home[2] / 40 / width);
        if (width * by > this.home[2] * 0.999) this.showAll();
        else this.show([x - (x - left) * by, y - (y - top) * by, width * by, height * by]);
    }

    /** @param {number} across @param {number} down parts of what is seen */
    pan(across, down) {
        const [left, top, width, height] = this.view;
        this.show([left + across * width, top + down * height, width, height]);
    }

    /** @param {{clientX: number, clientY: number}} event @returns {DOMPoint} the place in the picture */
    placeOf({ clientX, clientY }) {
        return new DOMPoint(clientX, clientY).matrixTransform(this.svg.getScreenCTM()?.inverse());
    }

    /** @param {Element} thing what is to be in sight */
    flyTo(thing) {
        if (this.isZoomed) {
            const { left, right, top, bottom } = thing.getBoundingClientRect();
            const { x, y } = this.placeOf({ clientX: (left + right) / 2, clientY: (top + bottom) / 2 });
            const [, , width, height] = this.view;
            this.show([x - width / 2, y - height / 2, width, height]);
        }
        thing.scrollIntoView({ block: "nearest", inline: "center" });
    }
}

/** The strips of a page, and the one that the pointer was over last. */
export class Strips {
    constructor() {
        this.all = /** @type {SVGSVGElement[]} */ (every("svg.strip")).map((it) => new Strip(it));
        /** @type {Strip | undefined} */
        this.current = this.all[0];
        /** @type {{strip: Strip, at: DOMPoint} | null} what a pointer holds */
        this.held = null;
    }

    showAll() {
        for (const strip of this.all) strip.showAll();
    }

    /** @param {string} selector @param {string} key @returns {{strip: Strip, thing: Element} | null} */
    find(selector, key) {
        for (const strip of this.all) {
            const thing = every(selector, strip.svg).find((it) => it.dataset.key === key);
            if (thing) return { strip, thing };
        }
        return null;
    }

    listen() {
        for (const strip of this.all) this.#listenTo(strip);
        addEventListener("pointermove", (event) => {
            if (!this.held || !event.buttons) return;
            const { strip, at } = this.held;
            const [place, [left, top, width, height]] = [strip.placeOf(event), strip.view];
            strip.show([left - place.x + at.x, top - place.y + at.y, width, height]);
        });
        addEventListener("pointerup", () => { this.held = null; });
        /** @type {View[]} */
        let kept = [];
        addEventListener("beforeprint", () => {
            kept = this.all.map((it) => it.view);
            this.showAll();
        });
        addEventListener("afterprint", () => this.all.forEach((it, at) => it.show(kept[at] ?? it.home)));
    }

    /** @param {Strip} strip */
    #listenTo(strip) {
        const { svg } = strip;
        svg.addEventListener("pointerenter", () => { this.current = strip; });
        svg.addEventListener("wheel", (event) => {
            if (!event.ctrlKey && !strip.isZoomed) return;
            event.preventDefault();
            strip.zoom(event.deltaY > 0 ? 1.2 : 1 / 1.2, strip.placeOf(event));
        }, { passive: false });
        svg.addEventListener("pointerdown", (event) => { if (strip.isZoomed) this.held = { strip,
            at: strip.placeOf(event) }; });
        svg.addEventListener("dblclick", (event) => strip.zoom(1 / 1.8, strip.placeOf(event)));
    }
}
