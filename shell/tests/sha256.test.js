/** SHA-256 of its own, beside node's. */
import assert from "node:assert/strict";
import { createHash, randomBytes } from "node:crypto";
import { test } from "node:test";
import { sumOf } from "../both/sha256.js";

test("bytes of each length up to some blocks, and many, have the sum that node gives them", () => {
    for (const length of [...Array(260).keys(), 100_003, 1 << 20]) {
        const bytes = new Uint8Array(randomBytes(length + 3)).subarray(3);
        assert.equal(Buffer.from(sumOf(bytes)).toString("hex"), createHash("sha256").update(bytes).digest("hex"), `${length} bytes`);
    }
});
