/**
 * What a page has: figures, facts, the list of objects, and where it comes from.
 */
import { draw } from "./drawing.js";
import { gapsOf } from "./gaps.js";
import { element } from "./markup.js";
import { Objects } from "./objects.js";
import { kindOfSign } from "./objects_drawn.js";
import { MEANINGS } from "./signs.js";

/** @typedef {import("./drawing.js").Picture} Picture */
/** @typedef {import("./drawing.js").Scene} Scene */
/** @typedef {import("./facts.js").Provenance} Provenance */
/** @typedef {import("./markup.js").Child} Child */
/** @typedef {import("./markup.js").Element} Element */
/** @typedef {import("./sentences.js").Badge} Badge */
/** @typedef {import("./station.js").Station} Station */
/** @typedef {object} Figure a picture in strips, or other parts
 * @property {Picture | null} picture
 * @property {Element[]} parts
 * @property {Child[]} caption
 * @property {string} [title]
 * @property {string} [id]
 * @property {string} [kind] */

/**
 * The kinds of signs that a scene has in its picture.
 * @param {Scene} scene
 * @param {Picture} picture
 * @returns {string[]}
 */
function signsIn({ station, drawing, signals, pieces }, { spots }) {
    const seen = new Set(drawing.nodes.map((it) => station.signOf(it.number)));
    if (drawing.nodes.some((it) => station.normalLeg(it.number) && station.legs(it.number))) seen.add("normal");
    for (const it of signals) {
        const kind = station.signalKind(it.name);
        seen.add(station.headsEast(it) === null ? "signal both" : kind);
    }
    if (gapsOf(drawing, station).length) seen.add("gap");
    for (const number of spots.keys()) seen.add(kindOfSign(pieces.located[number]));
    const tracks = drawing.edges.map((it) => station.isMain(it.track) ? "main" : "track");
    if (tracks.includes("main")) for (const it of tracks) seen.add(it);
    return [...MEANINGS.keys()].filter((it) => seen.has(it));
}

export class Page {
    /** @param {string} subject @param {Station} station @param {Provenance} provenance */
    constructor(subject, station, provenance) {
        this.subject = subject;
        this.station = station;
        this.provenance = provenance;
        /** @type {Child[]} */
        this.lead = [];
        /** @type {Badge} */
        this.badge = ["", ""];
        /** @type {Figure[]} */
        this.figures = [];
        /** @type {[string, Child[]][]} */
        this.facts = [];
        /** @type {Element[]} */
        this.changes = [];
        /** @type {Objects | null} */
        this.objects = null;
        /** @type {Scene | null} */
        this.scene = null;
        /** @type {Picture | null} the picture of this scene */
        this.picture = null;
        /** @type {Set<string>} */
        this.signs = new Set();
        /** @type {Map<string, [string, string]>} each shortened name with the whole one */
        this.short = new Map();
        /** @type {Set<string>} */
        this.leftOut = new Set();
        this.sheet = "";
        this.isLeft = false;
        /** @type {(() => void)[]} the drawing that is left to do */
        this.left = [];
    }

    /**
     * Leaves drawing for later: a page can be named without it.
     * @param {() => void} draw
     */
    later(draw) {
        this.left.push(draw);
    }

    /** @returns {Page} the page with all its drawings */
    drawn() {
        for (const draw of this.left.splice(0)) draw();
        return this;
    }

    /** @returns {Picture[]} */
    get pictures() {
        return this.figures.flatMap((it) => it.picture ?? []);
    }

    /**
     * Adds the picture of a scene, which may be drawn already; the first one's objects are those of the list.
     * @param {Scene} scene
     * @param {Child[]} caption
     * @param {{picture?: Picture, title?: string, id?: string, kind?: string}} how
     */
    draw(scene, caption, { picture = draw(scene), ...more } = {}) {
        picture.widen(picture.width());
        this.figures.push({ picture, parts: picture.strips, caption, ...more });
        for (const pair of picture.short) this.short.set(pair.join("\n"), pair);
        for (const name of picture.leftOut) this.leftOut.add(name);
        for (const kind of signsIn(scene, picture)) this.signs.add(kind);
        this.isLeft = scene.isLeft;
        if (!this.objects) this.list(scene, picture);
    }

    /** @param {Scene} scene the one whose objects are listed @param {Picture} picture of it */
    list(scene, picture) {
        this.scene = scene;
        this.picture = picture;
        this.objects = new Objects(scene, picture);
    }

    /** Gives all pictures one width: so a screen that is narrower shows them at one scale. */
    align() {
        const wide = Math.max(...this.pictures.map((it) => it.width()));
        for (const picture of this.pictures) picture.widen(wide);
    }

    /** @param {string} title @param {...Child} paragraphs */
    fact(title, ...paragraphs) {
        this.facts.push([title, paragraphs.map((it) => typeof it === "string" ? element("p", {}, it) : it)]);
    }
}
