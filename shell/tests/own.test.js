/** What the launcher does without the program: help, version, the manual page, completions, install and uninstall. */
import assert from "node:assert/strict";
import { spawnSync } from "node:child_process";
import { existsSync, lstatSync, mkdirSync, readFileSync, readdirSync, renameSync, rmSync, symlinkSync } from "node:fs";
import { join } from "node:path";
import { test } from "node:test";
import { InClone, PLACE, TOP } from "./clones.js";
import { bash, zsh } from "../both/completions.js";
import { allCommands, manPage, ofCommand, overview } from "../both/manual.js";
import { VERSION } from "../both/version.js";
import { COMMANDS, OPTIONS, OWN_OPTIONS, PAGE_WORDS, fault, read } from "../both/words.js";
import { NO_BUNDLER } from "../engine/packed.js";
import { TIMES } from "../terminal/own.js";

const COMMANDS_ALL = [...allCommands().values()];
const OPTIONS_ALL = [...OPTIONS.keys(), ...OWN_OPTIONS.keys(), ...PAGE_WORDS.keys()];
const joined = (/** @type {string} */ text) => text.split(/\s+/).join(" ");
const has = (/** @type {string} */ command) => ({
    skip: spawnSync("which", [command]).status !== 0 && `there is no ${command}`,
});
/** @param {string} word @returns {string} */
const helpOf = (word) => ofCommand(/** @type {any} */ (allCommands().get(word)), "railplan");

test("help in each spelling, and that of a command", (it) => {
    const clone = new InClone(it);
    rmSync(join(clone.top, "bin/rt"));
    for (const [first, ...others] of [["help", "--help", "-h", "--unproved --help"], ["help draw", "draw --help", "--help draw",
        "draw one.xml --help", "draw --width 4 --help", "--html p draw --help"]]) {
        const text = clone.launch(first.split(" "))[1];
        assert.ok(text.length > 100);
        for (const line of others) {
            assert.deepEqual(clone.launch(line.split(" ")), [0, text, ""], line);
        }
    }
});

test("every command has a help", () => {
    for (const { word, more, examples } of COMMANDS_ALL) {
        const text = helpOf(word);
        assert.ok(text.startsWith(`railplan ${word}`) && joined(text).includes(more), word);
        assert.ok(text.split("\n").every((line) => line.length <= 80) && examples.length, word);
    }
});

test("each command has an example that can be typed", () => {
    for (const { word, examples } of COMMANDS_ALL) {
        for (const example of examples) {
            const line = read(example.split(" > ")[0].split(" "));
            assert.ok(helpOf(word).includes(`  railplan ${example}\n`), example);
            assert.ok(manPage(VERSION).includes(`\nrailplan ${example.replaceAll("-", "\\-")}\n`), example);
            assert.equal(COMMANDS.has(line.command) ? fault(line.words) : null, null, example);
            assert.ok(line.names.every((name) => !name.includes("/") || name.startsWith("~") || existsSync(join(TOP, name))),
                example);
        }
    }
});

test("what users asked for is said", () => {
    for (const [word, said] of [["redraw", "A grid little larger than the former drawing gives a narrower one."],
        ["redraw", "Its answer is no sheet: --sheet NAME writes one"], ["signals", "The lines from `signals` on are no part of the sheet"],
        ["check", "trim once and recheck often"], ["check", "hand over the three"], ["draw", "A4, A3, A2 or A1 (A3)"],
        ["draw", "name or id (name)"], ["draw", "right or left (right)"]]) {
        assert.ok(joined(helpOf(word)).includes(said), said);
    }
    const check = helpOf("check");
    assert.ok(check.indexOf("--log station.log > station.sheet") < check.indexOf("station.sheet station.log"));
    assert.ok([...PAGE_WORDS.values()].every((it) => !it.choices || !it.usual || it.choices.includes(it.usual)));
});

test("the overview names all and is 80 columns wide", () => {
    const text = overview("./railplan", TIMES);
    for (const word of [...allCommands().keys(), ...OPTIONS.keys(), ...PAGE_WORDS.keys(), "--unproved"]) {
        assert.match(text, new RegExp(`^  ${word}(?!\\w)`, "m"));
    }
    assert.deepEqual(text.split("\n").filter((line) => line.length > 84), []);
});

test("help of what is no command", (it) => {
    const clone = new InClone(it), [status, out, err] = clone.launch(["help", "drow"]);
    assert.deepEqual([status, out], [2, ""]);
    assert.match(err, /Did you mean/);
    assert.match(clone.launch(["help", "frobnicate"])[2], /`frobnicate` is no command: /);
});

test("a page comes before values in the readme", () => {
    const text = readFileSync(join(TOP, "README.md"), "utf-8");
    const places = ["./railplan --html station.html draw examples/station.xml", "Open `station.html`", "values 2 2 3 7"]
        .map((it) => text.indexOf(it));
    assert.deepEqual(places, places.filter((it) => it >= 0).sort((one, other) => one - other));
});

test("the version says whether the program is proved", (it) => {
    const clone = new InClone(it), version = () => clone.launch(["--version"]);
    assert.deepEqual(version(), clone.launch(["version"]));
    assert.match(version()[1],
        new RegExp(`^railplan ${VERSION}\nprogram: not built yet; the next run builds it without proofs, in two to `
        + "three minutes\nproofs: \\S+ prove proves and builds it, in most of an hour on four processors\n$"));
    clone.launch(["graph", "one.xml"]);
    assert.match(version()[1], /^railplan \S+\nprogram: proved and built from these sources with kit-1\nSHA-256: \w{64}\n$/);
    clone.write("crates/low/src/lib.rt", "// other\n");
    assert.match(version()[1], /not that of these sources: crates\/low\/src\/lib\.rt isn't/);
    rmSync(join(clone.top, "crates/railplan_main/out"), { recursive: true });
    clone.script(PLACE, "#!/bin/sh\n");
    assert.match(version()[1], /program: not known to be proved/);
});

/**
 * a clone with a program, what is in its prefix, and a run on that
 * @param {any} it
 */
function installing(it) {
    const clone = new InClone(it), prefix = join(clone.top, "prefix");
    clone.script(PLACE, "#!/bin/sh\necho ran\n");
    const files = () => existsSync(prefix) ? /** @type {string[]} */ (readdirSync(prefix, { recursive: true }))
        .filter((name) => !lstatSync(join(prefix, name)).isDirectory() && !name.startsWith("lib/railplan/")).sort() : [];
    return { clone, prefix, files, run: (/** @type {string} */ word, more = {}) => clone.launch([word, prefix], more) };
}

test("install and uninstall", (it) => {
    const { clone, prefix, files, run } = installing(it), [status, out, err] = run("install");
    assert.deepEqual([status, out], [0, ""]);
    assert.match(err, /isn't on the PATH/);
    assert.deepEqual(files(), ["bin/railplan", "share/bash-completion/completions/railplan", "share/man/man1/railplan.1",
        "share/zsh/site-functions/_railplan"]);
    assert.equal(run("install")[0], 0);
    renameSync(join(clone.top, "shell"), join(clone.top, "moved"));
    const path = `PATH="$HERE/prefix/bin:$PATH"; railplan graph one.xml; railplan drow; railplan help draw | head -1`;
    assert.equal(clone.launchBy(path)[1], "ran\nran\nrailplan draw FILE [OPTIONS]\n");
    assert.equal(clone.launchBy("prefix/bin/railplan uninstall prefix")[0], 0);
    assert.ok(!existsSync(prefix));
    renameSync(join(clone.top, "moved"), join(clone.top, "shell"));
    assert.equal(run("uninstall")[0], 2);
});

test("install below DESTDIR", (it) => {
    const { clone, prefix, run } = installing(it), DESTDIR = join(clone.top, "made");
    assert.equal(run("install", { DESTDIR })[0], 0);
    assert.ok(!existsSync(prefix));
    renameSync(join(DESTDIR, prefix), prefix);
    assert.equal(clone.launch(["graph", "one.xml"])[1], "ran\n");
    assert.equal(clone.launchBy("prefix/bin/railplan graph one.xml; prefix/bin/railplan uninstall prefix")[1], "ran\n");
    assert.ok(!existsSync(prefix));
});

test("files of others stay, and nothing goes through a link", (it) => {
    const { clone, prefix, run } = installing(it);
    for (const name of ["bin/railplan", "share/man/man1/railplan.1", "lib/railplan/x"]) {
        clone.write(`prefix/${name}`, "mine\n");
        assert.equal(run("install")[0], 2, name);
        run("uninstall");
        assert.equal(clone.text(`prefix/${name}`), "mine\n");
        rmSync(prefix, { recursive: true });
    }
    mkdirSync(join(prefix, "share/man/man1"), { recursive: true });
    symlinkSync(join(clone.top, "elsewhere"), join(prefix, "share/man/man1/railplan.1"));
    assert.equal(run("install")[0], 2);
    assert.ok(!existsSync(join(clone.top, "elsewhere")));
});

test("a folder that cannot be written", (it) => {
    const { clone, run } = installing(it);
    clone.write("prefix", "");
    assert.equal(run("install")[0], 6);
});

test("words that are too many", (it) => {
    const clone = new InClone(it), before = readdirSync(clone.top).sort();
    for (const [line, said] of [["prepare a b c", "`c` is one name too many: ./railplan prepare IN OUT [OPTIONS]"],
        ["prepare a --b c", "prepare has no option --b: ./railplan prepare IN OUT [OPTIONS]"],
        ["install a b", "`b` is one name too many: ./railplan install [PREFIX]"],
        ["install --prefix=here", "install has no option --prefix=here: ./railplan install [PREFIX]"],
        ["uninstall a b", "`b` is one name too many: ./railplan uninstall [PREFIX]"],
        ["version a", "`a` is one name too many: ./railplan version"],
        ["--version a", "`a` is one name too many: ./railplan version"],
        ["help draw graph", "`graph` is one name too many: ./railplan help [COMMAND]"]]) {
        assert.deepEqual(clone.launchBy(`./railplan ${line}`), [2, "", `railplan: ${said}\n`]);
    }
    assert.deepEqual(readdirSync(clone.top).sort(), before);
});

test("words that go before others", (it) => {
    const clone = new InClone(it);
    for (const [before, command] of [["--html p", "prepare one.xml b"], ["--paper A3", "install a"],
        ["--unproved", "uninstall a"],
        ["--html p", "version"], ["--unproved", "--version"], ["--unproved", "prove"]]) {
        const [status, out, err] = clone.launch(`${before} ${command}`.split(" "));
        assert.deepEqual([status, out], [2, ""]);
        assert.ok(err.includes(`${before.split(" ")[0]} doesn't go with ${command.split(" ")[0].replace(/^-+/, "")}: `), err);
    }
    assert.deepEqual(["b", "a", "p"].filter((name) => existsSync(join(clone.top, name))), []);
});

test("the manual page has every word", () => {
    const page = manPage(VERSION);
    for (const word of [...allCommands().keys(), ...OPTIONS_ALL]) {
        assert.ok(page.includes(`\\fB${word.replaceAll("-", "\\-")}`), word);
    }
});

test("the manual page is troff", has("groff"), () => {
    const ran = spawnSync("groff", ["-man", "-Tascii", "-ww"], { input: manPage(VERSION), encoding: "utf-8" });
    assert.deepEqual([ran.status, ran.stderr], [0, ""]);
    assert.match(ran.stdout.replace(/.\x08/g, ""), /EXIT STATUS/);
});

/**
 * what bash offers for the last of these words
 * @param {...string} typed @returns {string[]}
 */
function completed(...typed) {
    const line = ["railplan", ...typed].map((it) => `'${it}'`).join(" ");
    const script = `${bash()}COMP_WORDS=(${line}); COMP_CWORD=${typed.length}; _railplan; printf '%s\\n' "\${COMPREPLY[@]}"`;
    return spawnSync("bash", ["-c", script], { encoding: "utf-8" }).stdout.split(/\s+/).filter(Boolean);
}

test("completions of bash", has("bash"), () => {
    for (const [typed, offered] of /** @type {[string[], string[]][]} */ ([[["dr"], ["draw"]],
        [["re"], [...allCommands().keys()].filter((it) => it.startsWith("re"))], [["draw", "--he"], ["--height", "--help"]],
        [["graph", "--"], ["--help"]], [["draw", "--order", "b"], ["bends"]], [["front", "x", "height,w"], ["height,width"]],
        [["help", "expl"], ["explain"]], [["folder", "a", "b", "--c"], ["--certify", "--conflicts"]],
        [["draw", "--width", ""], []],
        [["draw", "--paper", "A"], ["A4", "A3", "A2", "A1"]], [["--side", "r"], ["right"]]])) {
        assert.deepEqual(completed(...typed), offered);
    }
});

test("completions of zsh name every word", () => {
    const text = zsh();
    assert.deepEqual([...allCommands().keys(), ...OPTIONS_ALL].filter((word) => !text.includes(word)), []);
    assert.match(text, /\(help\) _describe/);
    for (const { choices } of PAGE_WORDS.values()) {
        assert.ok(text.includes(choices ? `:(${choices.join(" ")})'` : ":_files'"));
    }
});

test("completions of zsh are a script", has("zsh"), () => {
    const ran = spawnSync("zsh", ["-n"], { input: zsh(), encoding: "utf-8" });
    assert.deepEqual([ran.status, ran.stderr], [0, ""]);
});

test("a desk that can't be packed is no reason for a build", (it) => {
    const clone = new InClone(it), tools = join(clone.top, "tools");
    mkdirSync(tools);
    symlinkSync(process.execPath, join(tools, "node"));
    symlinkSync(join(clone.top, "bin/rt"), join(tools, "rt"));
    const [status, , said] = clone.launch(["browser", "desk.html"], { PATH: tools });
    assert.deepEqual([status, said], [10, `railplan: desk.html isn't written: ${NO_BUNDLER}\n`]);
    assert.deepEqual([clone.text("asked"), existsSync(join(clone.top, "desk.html"))], ["", false]);
});
