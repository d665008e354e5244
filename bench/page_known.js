/** What a page's script knows of it, as JSON: `node page_known.js PAGE`. The page's record is read, and drawn anew. */
import { readFileSync } from "node:fs";
import { carriedBy } from "../shell/both/page/carried.js";
import { make } from "../shell/both/page/kinds.js";
import { Run } from "../shell/both/page/run.js";
import { knownOf } from "../shell/both/page/whole.js";

/** @type {(name: string, value: unknown) => unknown} numbers without an end are no JSON; they are asked for by nothing */
const plain = (_, value) => typeof value === "bigint" ? String(value) : value;
const parts = await carriedBy(readFileSync(process.argv[2], "utf8"));
const known = parts && knownOf(make(new Run(parts.record)));
const asked = known && { objects: Object.fromEntries(known.objects), signals: Object.fromEntries(known.signals) };
console.log(JSON.stringify(asked, plain));
