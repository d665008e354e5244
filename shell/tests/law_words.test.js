/** What laws ask of nodes, in words. */
import assert from "node:assert/strict";
import { test } from "node:test";
import { Named } from "../both/messages/explained.js";
import { atNode, byMileage, kilometres } from "../both/messages/law_words.js";
import { near } from "../both/near.js";

/** @param {string} name @param {string} mileage */
function node(name, mileage) {
    return { name, mileage };
}

test("two of one mileage lie in one column", () => {
    assert.equal(byMileage(node("a", "1200.000000"), node("b", "1200.000000")),
        "the nodes a and b, both at km 1.200, lie in one column");
});

test("the one of smaller mileage comes first", () => {
    const a = node("a", "9.0"), b = node("b", "10.0"), said = "the node a, at km 0.009, doesn't lie further right than b, at km "
        + "0.010";
    assert.deepEqual([byMileage(a, b), byMileage(b, a)], [said, said]);
    assert.equal(byMileage(node("a", ""), b), "the nodes a and b lie from left to right as their mileages do");
    assert.deepEqual(["12310", "-5", "1234.5", "600.125500"].map(kilometres), ["12.310", "-0.005", "1.2345", "0.6001255"]);
});

test("slopes are said for each kind", () => {
    const said = ["switch", "crossing", "joint", "end", ""].map((kind) => atNode("x", kind, "upper"));
    assert.equal(new Set(said).size, 5);
    assert.match(said[0], /steeper on the upper side/);
});

test("the terminal says them by the graph", () => {
    const named = new Named(["node 0 a switch east lower 5.000000", "node 1 b end 5.000000", "edge 2 t 0 1"]);
    const [a, b, other] = ["0", "1", "7"].map((number) => ({ kind: "node", number }));
    assert.equal(named.law(2, [a, b]), "the nodes a and b, both at km 0.005, lie in one column");
    assert.equal(named.law(4, [a]), atNode("a", "switch", "lower"));
    assert.equal(named.law(4, [b]), atNode("b", "end", ""));
    assert.equal(named.law(5, [a, b]), "a and b lie apart");
    assert.equal(named.law(4, [other]), atNode("node 7", "", ""));
    assert.equal(named.law(6, [{ kind: "edge", number: "2" }, { kind: "edge", number: "3" }]), "t from a to b lies above edge "
        + "3");
});

test("a word that is nearly another one", () => {
    assert.deepEqual([near("widht", ["height", "width"]), near("x", ["y"]), near("W1.brnch", ["W2.branch", "W1.branch"], 0.8)],
        ["width", "", "W1.branch"]);
});
