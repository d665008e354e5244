/**
 * The pictures of the guide, drawn as pages draw them: `node shell/tests/guide_pictures.js` reads what is wanted as JSON, for
 * each answer its words, its text and the names of its pictures, and prints the pictures by their names.
 */
import { readFileSync } from "node:fs";
import { alone, small } from "../both/page/drawing.js";
import { stylesOf } from "../both/page/written.js";
import { stylesIn } from "../terminal/bundle.js";
import { TOP, pageOf } from "./pages/runs.js";

/** half of this paper is wide enough for each of two drawings side by side */
const PAPER = "A2";
const SMALL = "small_";

/** @type {{words: string[], answer: string, names: string[]}[]} */
const wanted = JSON.parse(readFileSync(0, "utf8"));
const [, style] = stylesOf(stylesIn(TOP), PAPER);
/** @type {Record<string, string>} */
const found = {};
for (const { words, answer, names } of wanted) {
    const page = pageOf(words, answer, { settings: { paper: PAPER, labels: "name", side: "right", east: "" } });
    names.forEach((name, at) => {
        const picture = name.startsWith(SMALL) && page.scene ? small(page.scene) : page.figures[at].picture;
        found[name] = picture ? `${alone(picture, style, page.figures[at].title || page.subject)}\n` : "";
    });
}
process.stdout.write(JSON.stringify(found));
