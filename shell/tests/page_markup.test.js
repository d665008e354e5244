/** No text becomes markup, whatever it is, what can't be seen is spelled, and numbers are the same texts everywhere. */
import assert from "node:assert/strict";
import { test } from "node:test";
import { Letters, visible } from "../both/page/letters.js";
import { document, element } from "../both/page/markup.js";
import { byCharacters, fixed, grouped, shown } from "../both/page/numbers.js";
import { widthOf } from "../both/page/widths.js";
import { read } from "../both/railml.js";
import { written } from "../engine/packed.js";

const HOSTILE = ["<script>x()</script>", "\"><img src=x onerror=x()>", "' onload='x()", "&lt;b&gt;", "</style><b>", "]]>",
    "<!--",
    "\u202e2W", "W1\u200b", "a\tb\nc"];

test("texts and values come back", () => {
    for (const text of HOSTILE) {
        const found = read(new TextEncoder().encode(String(element("title", { value: text }, element("b"), text))));
        assert.deepEqual([found.trouble, found.elements.length, found.root?.text, found.root?.attributes.get("value")],
            [null, 2, text, text]);
    }
    assert.equal(String(element("b", { title: "\ufffe" }, "a\x00\ud800")), '<b title="‹U+FFFE›">a‹U+0000›‹U+D800›</b>');
});

test("scripts can't be ended", () => {
    for (const text of ["</script>", "<!--", "</style", "<SCRIPT", "\x00"]) assert.throws(() =>
        String(element("script", {}, text)));
    assert.equal(String(element("script", {}, "a<b&&c</d")), "<script>a<b&&c</d</script>");
});

test("data holds no markup", () => {
    assert.ok(!written(HOSTILE).includes("<"));
    assert.deepEqual(JSON.parse(written(HOSTILE)), HOSTILE);
});

test("void elements and attributes that lack", () => {
    assert.equal(String(element("input", { type: "text", hidden: true, id: null, class: "a", title: false })),
        '<input type="text" hidden="hidden" class="a">');
    assert.equal(document(element("p", {}, ["a", [null, element("br")]], "b")), "<!DOCTYPE html>\n<p>a<br>b</p>\n");
});

test("what can't be seen is spelled", () => {
    assert.deepEqual(["W1\u200b", "\u202e2W", "a\x00", "\ufffe", "a\u00a0b", "‹U+200B›", "Ä 轉"].map(visible),
        ["W1‹U+200B›", "‹U+202E›2W", "a‹U+0000›", "‹U+FFFE›", "a‹U+00A0›b", "‹U+2039›U+200B‹U+203A›", "Ä 轉"]);
});

test("what looks alike is spelled", () => {
    const names = ["B1", "\u04121", "é", "e\u0301", "Ю1"];
    const letters = new Letters(names);
    assert.deepEqual(names.map((it) => letters.shown(it)), ["B1", "‹U+0412›1", "‹U+00E9›", "e‹U+0301›", "Ю1"]);
});

test("a number half way goes to the even digit", () => {
    assert.deepEqual([0.125, 0.375, -0.125, -0.375, 2.5, 0.5, 1.5, 1.005, 0.1].map((it) =>
        fixed(it, it === 2.5 || it % 1 === 0.5 ? 0 : 2)),
        ["0.12", "0.38", "-0.12", "-0.38", "2", "0", "2", "1.00", "0.10"]);
    assert.deepEqual([1.5, -0.001, 12, 0.25, 100].map(shown), ["1.5", "0", "12", "0.25", "100"]);
    assert.deepEqual([999, 1000, 4194304].map(grouped), ["999", "1,000", "4,194,304"]);
    assert.ok(byCharacters("\u{1F600}", "\uffff") > 0 && byCharacters("a", "ab") < 0);
});

test("widths of letters", () => {
    assert.deepEqual(["W", "Ü", "轉", "e\u0301", "\u0301", "Ж", "😀"].map((it) => widthOf(it, 1000)),
        [944, 722, 1000, 556, 200, 620, 1000]);
});
