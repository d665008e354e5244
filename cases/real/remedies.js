/**
 * What sentences say to write, done as somebody would who trusts them, where what they ask of the ground is so. What only the
 * ground can answer is answered by the truth.
 */

import { mended } from "../../shell/both/prepare.js";

/** @typedef {import("./ground.js").Truth} Truth */
/** @typedef {{data: Uint8Array, known: (id: string) => string}} Remedied a file as it is then, and the ids that its elements had */
/** @typedef {{text: string, truth: Truth, odd: string}} File a file while it is mended by hand, what is so, and the track whose
 * kilometres are
 * otherwise than those of the line */

const WHAT = "(?:the (?:begin|end) of track|switch|crossing) [^ ,;.]+(?:\\.\\d+)?";

/** @param {string} text @returns {string} fit for a pattern */
function plain(text) {
    return text.replace(/[.*+?^${}()|[\]\\]/g, "\\$&");
}

/** @param {string} text @param {string} what an element in words @returns {string} its tag; "" where there is none */
function tagOf(text, what) {
    const [, kind, id] = /^(?:the )?(begin of track|end of track|switch|crossing|connection) (.*)$/.exec(what) ?? [];
    if (kind?.endsWith("track")) {
        const track = new RegExp(`<track id="${plain(id)}"[^]*?</track>`).exec(text)?.[0] ?? "";
        return new RegExp(kind.startsWith("begin") ? "<trackBegin[^>]*>" : "<trackEnd[^>]*>").exec(track)?.[0] ?? "";
    }
    return new RegExp(`<${kind}[^>]* ?id="${plain(id ?? "")}"[^>]*>`).exec(text)?.[0] ?? "";
}

/** @param {string} text @param {string} tag @param {string} name @param {string} value @returns {string} */
function setting(text, tag, name, value) {
    const there = new RegExp(` ${name}="[^"]*"`), set = ` ${name}="${value}"`;
    return !tag ? ""
        : text.replace(tag, () => (there.test(tag) ? tag.replace(there, () => set) : tag.replace(/(\/?>)$/, (end) => `${set}${end}`)));
}

/** @param {string} text @param {string} listed as absPos="1" at switch W1, absPos="2" at the end of track a @returns {string} */
function writing(text, listed) {
    return [...listed.matchAll(new RegExp(`absPos="([^"]*)" at (${WHAT})`, "g"))]
        .reduce((so, [, value, what]) => so && setting(so, tagOf(so, what), "absPos", value), text);
}

/** @param {string} text @param {string} tag @param {number} by @param {boolean} falls @returns {string} a place that is moved
 * along its track */
function moving(text, tag, by, falls) {
    const [, pos] = / pos="([^"]*)"/.exec(tag) ?? [], [, mileage] = /absPos="([^"]*)"/.exec(tag) ?? [];
    const once = tag.replace(/ pos="[^"]*"/, ` pos="${(Number(pos) + by).toFixed(3)}"`);
    const moved = mileage === undefined ? once : once.replace(
        /absPos="[^"]*"/, `absPos="${(Number(mileage) + (falls ? -by : by)).toFixed(3)}"`);
    return tag ? text.replace(tag, () => moved) : "";
}

/** @param {string} text @param {string} id @returns {string} the id of the track on which a switch is */
function trackOf(text, id) {
    const before = text.slice(0, text.indexOf(`id="${id}"`));
    return /<track id="([^"]*)"/.exec(before.slice(before.lastIndexOf("<track id=")))?.[1] ?? "";
}

/** @param {string} id @param {Truth} truth @returns {boolean} whether the mileage of a track falls on the ground */
function falls(id, truth) {
    return truth.turned.has(id);
}

/** @param {string} id a switch @param {Truth} truth @returns {string} the hand of its branch, seen from its points */
function handOf(id, truth) {
    return (truth.switches.get(id)?.legs === "east") === (truth.sides.get(id) === "upper") ? "left" : "right";
}

/** @type {[RegExp, (file: File, found: RegExpExecArray) => string][]} sentences, and what somebody does who reads them; "" where
 * nothing is done */
const SENTENCES = [
    [/where those of track \S+ alone are wrong/, ({ text, odd }, { input }) => {
        const [, listed = ""] = new RegExp(`where those of track ${plain(odd)} alone are wrong, or of another line, write ([^;]*?)(;|\\. |$)`)
            .exec(input) ?? [];
        return odd && listed ? writing(text, listed) : "";
    }],
    [/Where no absPos is written the mileage of track (\S+) is counted as if it rose.*: write (.*)/,
        ({ text, truth }, [, track, listed]) => (falls(track, truth) ? writing(text, listed) : "")],
    [/Do the kilometres of track (\S+) (rise|fall) .* towards (greater|smaller) .* write (orientation="\w+") in place of (\w+) at switch (\S+)/,
        ({ text, truth, odd }, [, own, rises, way, orientation, was, id]) => {
            const leads = truth.switches.get(id)?.legs === "east" ? "greater" : "smaller";
            return (rises === "rise") !== falls(own, truth) && way === leads && !odd
                ? text.replace(new RegExp(`(<switch id="${plain(id)}"[^]*?)orientation="${was}"`), (_, front) => `${front}${orientation}`)
                : "";
        }],
    [/absPosOffset isn't read/, ({ text }) => text.replace(
        /absPos="([^"]*)" absPosOffset="([^"]*)"/g, (_, own, offset) => `absPos="${Number(own) + Number(offset)}"`)],
    [/^the (begin) of track (\S+) has no absPos\. Write the mileage of this point in metres(?!.* write absPos=)/,
        ({ text, truth }, [, end, id]) => writing(text, `absPos="${truth.ends.get(`${end} ${id}`)}" at the ${end} of track ${id}`)],
    [/connection (\S+) of switch (\S+) has no course\. Write left or right/,
        ({ text, truth }, [, id, point]) => setting(text, tagOf(text, `connection ${id}`), "course", handOf(point, truth))],
    [/^course="[^"]*" of (\S+) isn't left or right/, ({ text, truth }, [, id]) => setting(text, tagOf(text, `connection ${id}`), "course",
        handOf(new RegExp(`<switch id="([^"]*)"[^>]*>\\s*<connection[^>]* ?id="${plain(id)}"`).exec(text)?.[1] ?? "", truth))],
    [/connection (\S+) of switch (\S+) has no orientation\. Write outgoing/, ({ text, truth }, [, id, point]) =>
        setting(text, tagOf(text, `connection ${id}`), "orientation",
            (truth.switches.get(point)?.legs === "east") === falls(trackOf(text, point), truth) ? "incoming" : "outgoing")],
    [/^the (begin|end) of track (\S+) has connection and openEnd, and one of them is read\. Leave the others out/,
        ({ text }, [, end, id]) => {
        const tag = tagOf(text, `the ${end} of track ${id}`);
        return text.replace(new RegExp(`(${plain(tag)}<connection[^>]*>)<openEnd[^>]*>`), "$1");
    }],
    [/^the (begin of track \S+) has no absPos.* write (absPos="[^"]*")/,
        ({ text }, [, what, written]) => writing(text, `${written} at the ${what}`)],
    [/the connection (\S+) refers to .*(?:Write its id|Did you mean) ?,? ?ref="([^"]*)"/,
        ({ text }, [, id, ref]) => setting(text, tagOf(text, `connection ${id}`), "ref", ref)],
    [/: (\S+) is the odd one\. Did you mean ref="([^"]*)"/,
        ({ text }, [, id, ref]) => setting(text, tagOf(text, `connection ${id}`), "ref", ref)],
    [/pos="([^"]*)" of (\S+) lies outside .*Write pos="([^"]*)"/, ({ text, truth }, [, was, id, pos]) =>
        moving(text, tagOf(text, `switch ${id}`), Number(pos) - Number(was), falls(trackOf(text, id), truth))],
    [/^the (begin|end) of track (\S+) and (switch|crossing) (\S+) are both at .* Move the switch or crossing a little away/,
        ({ text, truth }, [, end, , kind, id]) =>
        moving(text, tagOf(text, `${kind} ${id}`), atBegin(text, id) ? 0.5 : -0.5, falls(trackOf(text, id), truth))],
    [/half a metre apart, in pos and absPos, .* by their orientations and kilometres that is (switch|crossing) (\S+)/,
        ({ text, truth }, [, kind, id]) =>
        moving(text, tagOf(text, `${kind} ${id}`), falls(trackOf(text, id), truth) ? 0.5 : -0.5, falls(trackOf(text, id), truth))],
    [/Move the connection (\S+) into the end of track (\S+), in place of what is there, and the switch half a metre before it/,
        ({ text }, [, id, track]) => {
        const tag = tagOf(text, `connection ${id}`), point = /<switch id="[^"]*"[^>]*>/.exec(text)?.[0] ?? "";
        const whole = new RegExp(`(<track id="${plain(track)}"[^]*?<trackEnd[^>]*>)<openEnd[^>]*>`);
        return moving(text.replace(tag, "").replace(
            whole, (_, front) => `${front}${tag.replace(/ (course|orientation)="\w+"/g, "")}`), point, -0.5, false);
    }],
    [/Where the line goes on, write <openEnd id="\.\."\/> in place of the connection/,
        ({ text }) => text.replace(/<connection id="([^"]*)" ref="tr_line_[^>]*\/>/, '<openEnd id="$1.open"/>')],
    [/the (begin|end) of track (\S+) says nothing/, ({ text }, [, end, id]) => {
        const tag = tagOf(text, `the ${end} of track ${id}`);
        return text.replace(tag, () => `${tag}<openEnd id="${id}.${end}"/>`);
    }],
    [/a DOCTYPE isn't read.* Delete it/, ({ text }) => text.replace(/<!DOCTYPE[^[>]*(\[[^\]]*\])?>\n/, "")],
    [/this takes it off: sed -E 's#<\(\/\?\)rail:#/, ({ text }) => text.replace(/<(\/?)rail:/g, "<$1")],
    [/A three-way switch is written as two switches/,
        ({ text }) =>
        text.replace(
        /(<switch id="([^"]*)"[^>]* pos=")([\d.]+)(" absPos=")([\d.]+)("[^>]*>)(<connection[^>]*>)(<connection[^>]*>)<\/switch>/,
        (_, one, id, pos, two, mileage, three, first, second) => `${one}${pos}${two}${mileage}${three}${first}</switch>\n`
            + `${one.replace(`id="${id}"`, `id="${id}.2"`)}${Number(pos) + 0.5}${two}${Number(mileage) + 0.5}${three}${second}</switch>`)],
];

/** @param {string} text @param {string} id @returns {boolean} whether a switch or crossing is at its track's begin */
function atBegin(text, id) {
    return new RegExp(`id="${plain(id)}"[^>]* pos="0(\\.0*)?"`).test(text);
}

/**
 * A file as it is when somebody does what is said of it.
 * @param {File} file @param {string[]} said
 * @returns {string} "" where nothing is said that could be done
 */
export function remedied(file, said) {
    for (const sentence of said) {
        for (const [pattern, act] of SENTENCES) {
            const found = pattern.exec(sentence), text = found ? act(file, found) : "";
            if (text && text !== file.text) {
                return text;
            }
        }
    }
    return "";
}

/**
 * What prepare makes of a file, where a sentence names its line for that. All orientations of these files are right on the ground.
 * @param {Uint8Array} data @param {string[]} said
 * @returns {Remedied | null} null where no sentence does, or it writes nothing
 */
export function preparedAsSaid(data, said) {
    const line = /prepare station\.xml NEW\.xml(?: (--one-km)| --hands (\w+))? (?:writes|takes|exchanges|counts)/;
    for (const sentence of said) {
        const found = line.exec(sentence);
        if (found) {
            const it = mended("station.xml", data, "railplan", { isOneKm: found[1] !== undefined, hands: found[2] });
            return it.unfit || it.guesses.length || !it.changes.length ? null
                : { data: it.data, known: (id) => it.renamed.get(id) ?? id };
        }
    }
    return null;
}
