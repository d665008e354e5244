/** The scripts of pages and of the desk, which have most of their modules in common. */
import assert from "node:assert/strict";
import { spawnSync } from "node:child_process";
import { cpSync, mkdtempSync, rmSync } from "node:fs";
import { tmpdir } from "node:os";
import { join } from "node:path";
import { test } from "node:test";
import { fileURLToPath, pathToFileURL } from "node:url";
import { bundledTogether } from "../engine/packed.js";
import { partOf } from "../engine/together.js";

const IS_THERE = { skip: spawnSync("esbuild", ["--version"]).status !== 0 && "esbuild isn't there" };

/** @param {string} text @param {object} there the modules that are there by then @returns {any} what a module's function leaves among them */
const left = (text, there) => new Function("MODULES", `${partOf("own.js", text).body};return MODULES["own.js"]`)(there);

test("a module becomes a function of those that it needs", async () => {
    const text = 'import{a as x,b}from"./one.js";import"./two.js";var y=x+b;async function z(){return(await import("./three.js")).c}export{y as d,z};\n';
    const { needs, later } = partOf("own.js", text), made = left(text, { "one.js": { a: 1, b: 2 }, "two.js": {}, "three.js": { c: 7 } });
    assert.deepEqual([needs, later], [["one.js", "two.js"], ["three.js"]]);
    assert.equal(made.d, 3);
    assert.equal(await made.z(), 7);
});

test("no short name of a packed module is taken", () => {
    const names = [..."abcdefghijklmnopqrstuvwxyzABCDEFGHIJKLMNOPQRSTUVWXYZ$_"];
    for (const name of names) {
        assert.equal(left(`import{a as ${name}}from"./one.js";var x1=${name};export{x1 as d};\n`, { "one.js": { a: 3 } }).d, 3, name);
    }
});

test("notices behind a module stay, and a module without exports is one", () => {
    const noticed = 'var a=1;export{a};\n/*! notice */\n';
    assert.match(partOf("own.js", noticed).body, /\/\*! notice \*\//);
    assert.deepEqual(left(noticed, {}), { a: 1 });
    assert.equal(left("globalThis.seen=1;\n", {}), undefined);
});

test("both scripts begin with what both have, and are whole", IS_THERE, () => {
    const [page, desk] = bundledTogether(["page/opened.js", "page/desk_opened.js"]);
    let at = 0;
    while (page[at] === desk[at]) at++;
    assert.ok(at > page.length / 2, `${at} of ${page.length}`);
    for (const script of [page, desk]) {
        assert.doesNotMatch(script, /export\{|import\{|import\(|from"\.\//);
        assert.match(script, /^\/\*! Packed in: the XML reader sax\./);
        assert.doesNotThrow(() => new Function(script));
    }
    assert.deepEqual(bundledTogether(["page/opened.js", "page/desk_opened.js"]), [page, desk], "twice the same");
});

test("both are the same bytes wherever the shell lies", IS_THERE, async (it) => {
    const room = mkdtempSync(join(tmpdir(), "railplan-")), other = join(room, "deeper/by/some/folders");
    it.after(() => rmSync(room, { recursive: true, force: true }));
    cpSync(fileURLToPath(new URL("../", import.meta.url)), other, { recursive: true, filter: (name) => !name.endsWith("/tests") });
    const packed = await import(pathToFileURL(join(other, "engine/packed.js")).href);
    const entries = /** @type {[string, string]} */ (["page/opened.js", "page/desk_opened.js"]);
    assert.deepEqual(packed.bundledTogether(entries), bundledTogether(entries));
});
