/** What is changed in the text of the program's module, and what stays. */
import assert from "node:assert/strict";
import { test } from "node:test";
import { changed } from "../engine/module_text.js";

const TEXT = [
    'target datalayout = "e-m:e-i64:64"', 'target triple = "x86_64-unknown-linux-gnu"', "define i64 @f(i64 %0) #0 {",
    "  call void @llvm.memset.p0.i64(ptr %1, i8 -86, i64 24, i1 false)", "  call void @llvm.memset.p0.i64(ptr %1, i8 0, i64 24, i1 false)",
    "  br i1 %ok, label %go, label %stop", "}",
    'attributes #0 = { nounwind sanitize_address "frame-pointer"="all" "probe-stack"="inline-asm" "target-cpu"="x86-64-v2" }',
    "attributes #1 = { sanitize_address }", "",
].join("\n");

test("for this machine frames and marks of a tool go, and every check stays", () => {
    const lines = changed(TEXT, "native", true).split("\n");
    assert.equal(lines.filter((it) => it.includes("memset")).length, 1);
    assert.equal(changed(TEXT, "native", false).split("\n").filter((it) => it.includes("memset")).length, 2, "the proved program's own stay");
    assert.ok(lines.includes("  br i1 %ok, label %go, label %stop"));
    assert.ok(lines.includes('attributes #0 = { nounwind "target-cpu"="x86-64-v2" }'), lines.join("\n"));
    assert.ok(lines.includes("attributes #1 = { nounwind }"));
    assert.equal(lines[1], 'target triple = "x86_64-unknown-linux-gnu"');
});

test("for WebAssembly the machine is another", () => {
    const lines = changed(TEXT, "wasm", false).split("\n");
    assert.equal(lines[1], 'target triple = "wasm64-unknown-unknown"');
    assert.match(lines[0], /^target datalayout = "e-m:e-p:64:64/);
    assert.ok(lines.includes("attributes #0 = { nounwind }"), lines.join("\n"));
});
