/** From a module to WebAssembly: the same bytes each time, the most memory that there is, what a run leaves, and a tool that lacks. */
import assert from "node:assert/strict";
import { chmodSync, existsSync, mkdirSync, mkdtempSync, readFileSync, rmSync, writeFileSync } from "node:fs";
import { tmpdir } from "node:os";
import { join } from "node:path";
import { after, before, test } from "node:test";
import { NO_SHORTENER, needShortener, wasmProgram, withBench } from "../engine/compile.js";
import { called, findRt, kitOf } from "../engine/kit.js";
import { runWasm } from "../both/wasm_host.js";

const RT = findRt();
const HAS = { skip: !RT && "rt isn't there" };
/** what takes the place of the program: it fills its memory, ends with a status, or stops, by the first letter of its first word */
const PROGRAM = `
typedef unsigned long word;
typedef struct { word is_there; unsigned char *at; } Answer;
Answer rattle_alloc(word, word);
int open(const char *, int, ...);
long write(int, const void *, word), rattle_arg(word, void *, word);
static void left(const char *text, word length) {
    int file = open("left", 01 | 0100 | 01000, 0666);
    write(file, text, length);
}
static int filled(void) {
    word all = 0;
    unsigned char *last = 0;
    for (word bytes = 1ul << 20; bytes >= 1ul << 12; bytes >>= 4)
        for (;;) {
            Answer answer = rattle_alloc(bytes - 16, 8);
            if (!answer.is_there) break;
            all += bytes;
            last = answer.at + bytes - 17;
            *last = 42;
        }
    write(1, &all, 8);
    return *last != 42;
}
int main(void) {
    unsigned char asked = 0;
    rattle_arg(1, &asked, 1);
    if (asked == 'f') return filled();
    left("half of it", 10);
    if (asked == 's') __builtin_trap();
    return asked - '0';
}
`;

let room = "";
/** @type {Uint8Array[]} what two builds gave, each in a folder of its own */
const built = [];

before(async () => {
    if (!RT) return;
    room = mkdtempSync(join(tmpdir(), "railplan-"));
    const [source, module] = ["program.c", "module.bc"].map((it) => join(room, it));
    writeFileSync(source, PROGRAM);
    const words = ["--target=x86_64-unknown-linux-gnu", "--no-default-config", "-O1", "-ffreestanding", "-w", "-emit-llvm", "-c", source];
    const made = await called(join(kitOf(RT), "toolchain/bin/clang"), [...words, "-o", module]);
    assert.equal(made.status, 0, made.said);
    for (const name of ["one.wasm", "other.wasm"]) {
        await withBench(RT, undefined, (bench) => wasmProgram(bench, { file: module, isFilled: false }, join(room, name)));
        built.push(readFileSync(join(room, name)));
    }
});

after(() => room && rmSync(room, { recursive: true, force: true }));

/** @param {string} word what a run comes to */
async function ranWith(word) {
    const ran = runWasm(await WebAssembly.compile(built[0]), [word], new Map());
    return { ...ran, left: [...ran.files].map(([name, bytes]) => `${name}: ${Buffer.from(bytes)}`) };
}

test("the same module gives the same bytes", HAS, () => {
    assert.ok(built[0].length > 1000);
    assert.deepEqual(Buffer.from(built[0]), Buffer.from(built[1]));
});

test("memory grows to the last page below 4 GiB, and is refused beyond", HAS, async () => {
    const { status, trap, memory, output } = await ranWith("fill");
    assert.deepEqual([status, trap, memory], [0, "", 2 ** 32 - 65536]);
    const given = Number(new DataView(output.slice().buffer).getBigUint64(0, true));
    // what isn't given is the stack of 8 MiB, the module's own data, and the last page
    assert.ok(given > memory - 9 * 2 ** 20 && given < memory - 8 * 2 ** 20, String(memory - given));
});

test("a run that ends with 7 or is stopped by the machine leaves nothing; another leaves what it wrote", HAS, async () => {
    const [ended, whole, stopped] = [await ranWith("7"), await ranWith("4"), await ranWith("stop")];
    assert.deepEqual([ended.status, ended.left], [7, []]);
    assert.deepEqual([whole.status, whole.left], [4, ["left: half of it"]]);
    assert.deepEqual([stopped.status, stopped.left], [134, []]);
    assert.match(stopped.trap, /unreachable/);
});

test("a binaryen that isn't there is named, with the line that installs it", async (it) => {
    const folder = mkdtempSync(join(tmpdir(), "railplan-")), path = process.env.PATH;
    it.after(() => {
        process.env.PATH = path;
        rmSync(folder, { recursive: true, force: true });
    });
    process.env.PATH = folder;
    assert.equal(NO_SHORTENER, "wasm-opt isn't there, which makes the program one that every browser takes. Install it: apt install binaryen");
    await assert.rejects(needShortener(), { message: NO_SHORTENER });
    writeFileSync(join(folder, "wasm-opt"), "#!/bin/sh\n");
    chmodSync(join(folder, "wasm-opt"), 0o755);
    await needShortener();
});
