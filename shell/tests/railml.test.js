/** What is read of a file: elements with their bytes, values as XML has them, and where reading stops. */
import assert from "node:assert/strict";
import { test } from "node:test";
import { Decimal } from "../both/decimal.js";
import { ofByte, ofLine } from "../both/places.js";
import { mileage, read } from "../both/railml.js";

const bytes = (/** @type {string} */ text) => new TextEncoder().encode(text);
const plain = (/** @type {string} */ text) => text;

test("elements begin at bytes, and values have their references", () => {
    const data = bytes("\ufeff<?xml version=\"1.0\"?>\r\n<a n=\"é&#233;&amp;\tx\"><title>Zürich\r\n</title><b/></a>");
    const [a, title, b] = read(data).elements;
    assert.deepEqual([a.attributes.get("n"), title.text, b.parent], ["éé& x", "Zürich\n", a]);
    assert.deepEqual([a, title, b].map((it) => String.fromCharCode(data[it.place], data[it.place + 1])), ["<a", "<t", "<b"]);
});

test("reading stops at the first fault, and says where and why", () => {
    for (const [text, count, open, place, what] of /** @type {[string, number, number, number, string][]} */ ([
        ["<a><b>", 2, 2, 6, "no element found"], ["<a><b", 1, 1, 3, "unclosed token"], ["<a></b>", 1, 1, 5, "mismatched tag"],
        ["<a/><b/>", 1, 0, 4, "junk after document element"], ["<a><b x=\"1\" x=\"2\"/></a>", 1, 1, 12, "duplicate attribute"],
        ["<a>\n<b x=\"<\"/></a>", 1, 1, 6, "not well-formed (invalid token)"], ["", 0, 0, 0, "no element found"],
        ["<a>&x;</a>", 1, 1, 5, "undefined entity"], ["<a>]]></a>", 1, 1, 3, "not well-formed (invalid token)"],
        ["<a><!x></a>", 1, 1, 3, "not well-formed (invalid token)"], ["<a>\0</a>", 1, 1, 3, "not well-formed (invalid token)"],
    ])) {
        const found = read(bytes(text));
        assert.deepEqual([found.elements.length, found.open.length, found.trouble?.place, found.trouble?.what],
            [count, open, place, what], text);
    }
    assert.equal(read(Uint8Array.of(60, 97, 62, 255)).trouble?.place, 3);
});

test("a mileage is counted from the track's begin where none is written", () => {
    const document = read(bytes("<infrastructure><tracks><track><trackTopology><trackBegin pos=\"10\" "
        + "absPos=\"1000.50\"/><connections><switch pos=\"60.25\"/></connections></trackTopology></track></tracks>"
        + "</infrastructure>"));
    assert.equal(String(mileage(document.elements[6])), "1050.75");
});

test("decimal numbers are exact", () => {
    const of = (/** @type {string} */ text) => String(Decimal.of(text));
    assert.deepEqual(["1.50", " +7. ", ".5", "1e3", "1_0", "25e-4", "-0", "x", "inf", "1 2", ""].map(of),
        ["1.50", "7", "0.5", "1000", "10", "0.0025", "-0", "null", "null", "null", "null"]);
    const one = /** @type {Decimal} */ (Decimal.of("0.1")), two = /** @type {Decimal} */ (Decimal.of("0.20"));
    assert.deepEqual([one.plus(two), one.minus(two), one.minus(one)].map(String), ["0.30", "-0.10", "0.0"]);
    assert.deepEqual(["0.125", "0.135", "2"].map((it) => Decimal.of(it)?.toFixed(2)), ["0.12", "0.14", "2.00"]);
});

test("columns count characters, and a long line is cut", () => {
    const data = bytes("\ufeff<é a='1'/>\r\nnext");
    const place = ofByte("s.xml", data, 7);
    assert.deepEqual([place.head(), place.text, ofByte("s.xml", data, 18).head()], ["s.xml:1:4", "<é a='1'/>", "s.xml:2:3"]);
    assert.deepEqual([ofLine("s", data, 2).text, ofLine("s", data, 9).text, ofLine("s", null, 1).text], ["next", "", ""]);
    const long = ofByte("s", bytes("x".repeat(300)), 200).excerpt(plain);
    assert.equal(long, `    1 | …${"x".repeat(100)}…\n      | ${" ".repeat(34)}^\n`);
});
