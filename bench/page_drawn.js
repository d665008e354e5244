/** A page as it is once it has drawn itself, as one text: `node page_drawn.js PAGE`. */
import { readFileSync } from "node:fs";
import { carriedBy } from "../shell/both/page/carried.js";
import { make } from "../shell/both/page/kinds.js";
import { document, element } from "../shell/both/page/markup.js";
import { Run } from "../shell/both/page/run.js";
import { bodyOf } from "../shell/both/page/whole.js";

const parts = await carriedBy(readFileSync(process.argv[2], "utf8"));
if (!parts) throw new Error("the page carries no run");
process.stdout.write(document(element("html", {}, element("body", {}, bodyOf(make(new Run(parts.record)))))));
