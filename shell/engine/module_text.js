/**
 * The text of an LLVM module, changed line by line for a target. The program's own code stays: only what belongs to a machine
 * or to a way of running goes.
 */

/** how addresses and numbers lie in WebAssembly of 64 bits, as clang has it */
const WASM_LAYOUT = "e-m:e-p:64:64-p10:8:8-p20:8:8-i64:64-i128:128-n32:64-S128-ni:1:10:20";
/** frame rules of x86-64, and the mark for a tool that looks at each access to memory, which isn't used here */
const FRAMES = / ?("frame-pointer"="all"|"probe-stack"="[^"]*"|"stack-probe-size"="\d+"|sanitize_address)/g;

/**
 * One line of a module, or null where it goes.
 * @param {string} line
 * @param {"native" | "wasm"} target
 * @param {boolean} isFilled
 */
function changedLine(line, target, isFilled) {
    if (line.startsWith("attributes #")) {
        const plain = line.replace(FRAMES, "");
        return (target === "wasm" ? plain.replace(/ "target-cpu"="[^"]*"/, "") : plain).replace("{ }", "{ nounwind }");
    }
    if (target === "wasm" && line.startsWith("target datalayout")) {
        return `target datalayout = "${WASM_LAYOUT}"`;
    }
    if (target === "wasm" && line.startsWith("target triple")) {
        return 'target triple = "wasm64-unknown-unknown"';
    }
    return isFilled && line.includes(" i8 -86, i64 ") && line.includes("llvm.memset") ? null : line;
}

/**
 * @param {string} text
 * @param {"native" | "wasm"} target
 * @param {boolean} isFilled whether new memory is filled with a pattern, as a run without proofs does for the tool that isn't used here
 */
export function changed(text, target, isFilled) {
    const lines = [];
    for (const line of text.split("\n")) {
        const kept = changedLine(line, target, isFilled);
        if (kept !== null) {
            lines.push(kept);
        }
    }
    return lines.join("\n");
}
