/**
 * The table of commands: every command, its names and options, and the words that belong to pages, once, for the launcher, for
 * pages and for the documents' check. Behind `export default` it is one JSON text. A long text is a list of its parts, between
 * which a blank is left. Of `takes`: a number has `low`, `high` and `usual`; a file that the run writes has its `kind`; a word
 * has its `choices`; `commands` are those that a word of pages is for, where it isn't for all that have pages.
 */
export default {
    "commands": [
        {
            "word": "draw",
            "what": "searches for the best drawing of a railML 2 file's tracks, and prints it as a text, a sheet",
            "more": [
                "The best drawing has the least values: its height, then its bends, then its diagonal (the columns in",
                "which a line rises or falls, added up over all lines) and its width. The last line says how the",
                "search ended: `end best`, `end none` where no drawing is lawful on this grid, or `end conflicts S`",
                "where it stopped at its budget."
            ],
            "names": [
                { "word": "FILE", "what": "a railML 2 file", "kind": "railml" }
            ],
            "options": ["--width", "--height", "--least", "--order", "--conflicts", "--svg", "--log"],
            "examples": ["draw examples/station.xml --svg station.svg", "draw examples/station.xml --order height,width"],
            "takesLong": true
        },
        {
            "word": "signals",
            "what": "draws the station so that each signal has a column of its own, and says where each is",
            "more": [
                "Each edge takes one column more than the most signals that lie on one edge. The lines from `signals`",
                "on are no part of the sheet: --sheet NAME writes the sheet alone."
            ],
            "names": [
                { "word": "FILE", "what": "a railML 2 file", "kind": "railml" }
            ],
            "options": ["--width", "--height", "--order", "--conflicts", "--log"],
            "examples": ["signals cases/exports/passing_loop.xml"],
            "takesLong": true
        },
        {
            "word": "front",
            "what": [
                "prints the pairs of values of two criteria, as height,width, of which no drawing has less of one",
                "without more of the other"
            ],
            "more": "It shows what a row less costs in columns.",
            "names": [
                { "word": "FILE", "what": "a railML 2 file", "kind": "railml" },
                { "word": "PAIR", "what": "two criteria with a comma between them, as height,width", "kind": "pair" }
            ],
            "options": ["--width", "--height", "--least", "--conflicts"],
            "examples": ["front examples/station.xml height,width"],
            "takesLong": true
        },
        {
            "word": "explain",
            "what": [
                "says why no drawing is lawful: laws, each for its nodes or edges, that can't be met together, and a",
                "drawing without each; or that a drawing exists"
            ],
            "more": "Give it the grid on which draw ended with `end none`.",
            "names": [
                { "word": "FILE", "what": "a railML 2 file", "kind": "railml" }
            ],
            "options": ["--width", "--height", "--least", "--conflicts"],
            "examples": ["explain examples/station.xml --height 1"],
            "takesLong": true
        },
        {
            "word": "redraw",
            "what": [
                "draws a changed station with as few nodes as can be at other points than in the sheet, a drawing of",
                "the former file OLD"
            ],
            "more": [
                "A grid little larger than the former drawing gives a narrower one. Its answer is no sheet: --sheet NAME",
                "writes one beside it, which claims nothing but its values."
            ],
            "names": [
                { "word": "FILE", "what": "a railML 2 file", "kind": "railml" },
                { "word": "OLD", "what": "the former railML 2 file", "kind": "railml" },
                { "word": "SHEET", "what": "a drawing as a text, as draw prints it", "kind": "sheet" }
            ],
            "options": ["--width", "--height", "--least", "--conflicts", "--log"],
            "examples": ["redraw new.xml old.xml old.sheet --sheet new.sheet"],
            "takesLong": true
        },
        {
            "word": "graph",
            "what": "prints the file's track graph",
            "more": "It has the nodes and edges by number, and which edge is above which.",
            "names": [
                { "word": "FILE", "what": "a railML 2 file", "kind": "railml" }
            ],
            "options": [],
            "examples": ["graph examples/station.xml"]
        },
        {
            "word": "verify",
            "what": "says whether the sheet's drawing is lawful",
            "more": [
                "It prints `lawful` and the drawing's values, or the first law that it breaks. Whether a better",
                "drawing exists only check and recheck say."
            ],
            "names": [
                { "word": "FILE", "what": "a railML 2 file", "kind": "railml" },
                { "word": "SHEET", "what": "a drawing as a text, as draw prints it", "kind": "sheet" }
            ],
            "options": [],
            "examples": ["verify examples/station.xml examples/station.sheet"]
        },
        {
            "word": "check",
            "what": "says whether the log certifies what the sheet claims",
            "more": [
                "One run of draw makes SHEET and LOG, as below. Whoever has FILE, SHEET and LOG can check the claim:",
                "hand over the three. Or trim once and recheck often: HINTS are handed over in the place of LOG, and",
                "judged in a fraction of the time."
            ],
            "names": [
                { "word": "FILE", "what": "a railML 2 file", "kind": "railml" },
                { "word": "SHEET", "what": "a drawing as a text, as draw prints it", "kind": "sheet" },
                { "word": "LOG", "what": "a log of a search, as --log writes it", "kind": "log" }
            ],
            "options": [],
            "examples": [
                "draw examples/station.xml --log station.log > station.sheet",
                "check examples/station.xml station.sheet station.log"
            ],
            "takesLong": true
        },
        {
            "word": "trim",
            "what": [
                "writes into HINTS what is left of a log that check accepts: the lines that certify the claim and",
                "those on which they rest, with their hints"
            ],
            "more": [
                "recheck reads these lines in a fraction of the time that check needs for the log. Hand over FILE,",
                "SHEET and HINTS."
            ],
            "names": [
                { "word": "FILE", "what": "a railML 2 file", "kind": "railml" },
                { "word": "SHEET", "what": "a drawing as a text, as draw prints it", "kind": "sheet" },
                { "word": "LOG", "what": "a log of a search, as --log writes it", "kind": "log" },
                { "word": "HINTS", "what": "the file for the lines with their hints", "kind": "hints", "isWritten": true }
            ],
            "options": [],
            "examples": ["trim examples/station.xml station.sheet station.log station.hints"],
            "takesLong": true
        },
        {
            "word": "recheck",
            "what": "says whether the lines that trim left certify what the sheet claims",
            "more": "It reads the lines in one pass.",
            "names": [
                { "word": "FILE", "what": "a railML 2 file", "kind": "railml" },
                { "word": "SHEET", "what": "a drawing as a text, as draw prints it", "kind": "sheet" },
                { "word": "HINTS", "what": "lines of a log with their hints, as trim writes them", "kind": "hints" }
            ],
            "options": [],
            "examples": ["recheck examples/station.xml station.sheet station.hints"],
            "takesLong": true
        },
        {
            "word": "make",
            "what": "prints the file of a made station",
            "more": "It is a station with loops, made from the number, to try things on.",
            "names": [
                { "word": "N", "what": "a number, 0 to 4294967295", "kind": "number" }
            ],
            "options": [],
            "examples": ["make 7 > made.xml"]
        },
        {
            "word": "trial",
            "what": "makes a station and says how high and wide its least drawing is",
            "more": "The grid is 64 by 2.",
            "names": [
                { "word": "N", "what": "a number, 0 to 4294967295", "kind": "number" }
            ],
            "options": [],
            "examples": ["trial 7"],
            "takesLong": true
        }
    ],
    "options": [
        {
            "word": "--width",
            "value": "N",
            "what": "columns east of the first",
            "takes": "number",
            "low": 1,
            "high": 64,
            "usual": "40"
        },
        {
            "word": "--height",
            "value": "N",
            "what": "rows above the lowest",
            "takes": "number",
            "low": 0,
            "high": 12,
            "usual": "8"
        },
        {
            "word": "--least",
            "value": "N",
            "what": "columns of each edge at the least",
            "takes": "number",
            "low": 1,
            "high": 16,
            "usual": "1"
        },
        {
            "word": "--order",
            "value": "WORDS",
            "what": "what is made least, the most important first",
            "takes": "order",
            "usual": "height,bends,diagonal,width"
        },
        {
            "word": "--conflicts",
            "value": "N",
            "what": "how many clauses the search may learn, one from each conflict",
            "takes": "number",
            "low": 1,
            "high": 200000,
            "usual": "50000"
        },
        { "word": "--svg", "value": "FILE", "what": "a picture", "takes": "file", "kind": "picture" },
        { "word": "--log", "value": "FILE", "what": "a log of the search", "takes": "file", "kind": "log" }
    ],
    "frontWords": [
        {
            "word": "--unproved",
            "what": "takes the program without its proofs, which is built once, also where a proved one is there",
            "takes": "nothing"
        },
        {
            "word": "--json",
            "what": "prints the answer as one JSON object: its fields, or the fault with its place and what to do (docs/formats/json.md)",
            "takes": "nothing"
        }
    ],
    "pageWords": [
        {
            "word": "--html",
            "value": "FILE",
            "what": "a page with the drawing and what is said of it",
            "takes": "file",
            "kind": "page"
        },
        { "word": "--dxf", "value": "FILE", "what": "the drawing for a CAD program", "takes": "file", "kind": "dxf" },
        { "word": "--csv", "value": "FILE", "what": "the drawing's objects as a table", "takes": "file", "kind": "csv" },
        {
            "word": "--sheet",
            "value": "FILE",
            "what": "of signals and redraw: the drawing as a sheet, which verify and the next redraw take",
            "takes": "file",
            "kind": "sheet",
            "commands": ["signals", "redraw"]
        },
        {
            "word": "--paper",
            "value": "SIZE",
            "what": "the paper that the page is for",
            "takes": "word",
            "usual": "A3",
            "choices": ["A4", "A3", "A2", "A1"]
        },
        {
            "word": "--labels",
            "value": "KIND",
            "what": "what is written at nodes, tracks and signals",
            "takes": "word",
            "usual": "name",
            "choices": ["name", "id"]
        },
        {
            "word": "--side",
            "value": "SIDE",
            "what": "the side of the track on which signals are",
            "takes": "word",
            "usual": "right",
            "choices": ["right", "left"]
        },
        {
            "word": "--east",
            "value": "WAY",
            "what": "which way kilometres go to the east, or the edge at which east is",
            "takes": "word",
            "choices": ["rising", "falling", "right", "left"]
        },
        {
            "word": "--certify",
            "what": "puts the search's log, trimmed and checked, into the page, so that it certifies itself",
            "takes": "nothing",
            "commands": ["draw", "signals"]
        },
        { "word": "--plain", "what": "leaves out of a page the program by which it checks itself", "takes": "nothing" }
    ],
    "paged": ["draw", "signals", "front", "explain", "redraw", "verify"],
    "own": [
        {
            "word": "help",
            "what": "says what railplan can do, or what one command does",
            "names": [
                { "word": "[COMMAND]", "what": "a command", "kind": "command" }
            ],
            "options": [],
            "examples": ["help draw"]
        },
        {
            "word": "version",
            "what": "says which version this is, and whether it is proved",
            "names": [],
            "options": [],
            "examples": ["version"]
        },
        {
            "word": "prove",
            "what": "proves the program and builds it",
            "more": [
                "It says which crate is proved as it goes. It can be stopped at any time, and goes on from there;",
                "what is proved is kept. Until then railplan runs the program that it builds without proofs, and says",
                "so."
            ],
            "names": [],
            "options": [],
            "examples": ["prove"],
            "takesLong": true
        },
        {
            "word": "folder",
            "what": "draws each station of the folder IN into the folder OUT, with a page for all of them",
            "more": [
                "Each station is drawn on the grid that is asked for, and where no drawing is lawful there on larger",
                "ones. What hasn't changed isn't drawn again."
            ],
            "names": [
                { "word": "IN", "what": "a folder of railML 2 files", "kind": "folder" },
                { "word": "OUT", "what": "a folder for what is made", "kind": "folder" }
            ],
            "options": ["-j", "--certify", "--shard", "--join", "--width", "--height", "--least", "--order", "--conflicts"],
            "examples": ["folder stations drawn --certify"],
            "takesLong": true
        },
        {
            "word": "prepare",
            "what": "writes a file anew as railplan reads it, where the file itself says what is missing",
            "more": [
                "It says each change. Where it would have to guess it writes nothing, and lists all that the file lacks.",
                "What is mended is judged before it is written: by the program's own track graph each switch and",
                "crossing has the same legs, hands and neighbours as in IN. It is no part of what is proved."
            ],
            "names": [
                { "word": "IN", "what": "a railML 2 file", "kind": "railml" },
                { "word": "OUT", "what": "the file for what is mended", "kind": "railml" }
            ],
            "options": ["--without", "--one-km", "--hands"],
            "examples": ["prepare export.xml mended.xml", "prepare export.xml mended.xml --without joins,ids"]
        },
        {
            "word": "stations",
            "what": "writes one railML 2 file into the folder OUT for each station of a line or a network",
            "more": [
                "Stations are found by operational points, else by distance. What leads on to another station ends in",
                "an open end, named after it. Each file is judged before it is written: by the program's own track",
                "graph the two legs of each switch, and the paths of each crossing, lie on the side that they have in",
                "IN, with the same track above. Else the file isn't written, and why is said. Switches, tracks and",
                "signals that are in no file are said too. It is no part of what is proved."
            ],
            "names": [
                { "word": "IN", "what": "the railML 2 file of a line", "kind": "railml" },
                { "word": "OUT", "what": "a folder for the stations' files", "kind": "folder" }
            ],
            "options": ["--list", "--from", "--to", "--tracks"],
            "examples": ["stations line.xml stations", "stations line.xml stations --from 12.5 --to 20"],
            "takesLong": true
        },
        {
            "word": "browser",
            "what": "writes one page that has the whole program in it: whoever opens it draws without installing anything",
            "more": [
                "The page needs a browser, no network and nothing else. In it the program is WebAssembly, made from the",
                "proved program where that is there. It needs Debian's packages binaryen and esbuild to be made."
            ],
            "names": [
                { "word": "OUT.html", "what": "the page", "kind": "page", "isWritten": true }
            ],
            "options": [],
            "examples": ["browser railplan.html"],
            "takesLong": true
        },
        {
            "word": "check-page",
            "what": "judges a page that somebody else made, by your own program",
            "more": [
                "Its file, track graph, sheet and hints are taken out of the page and judged anew, and the page is compared",
                "with the one that this version writes of the same run. A line says right, wrong, or open where nobody",
                "judged it, as an explanation, or a script of another version. It ends with 8 where something is wrong,",
                "and with 4 where something is open beside names, dates and the command line."
            ],
            "names": [
                { "word": "PAGE", "what": "a page that railplan wrote", "kind": "page" }
            ],
            "options": [],
            "examples": ["check-page station.html"]
        },
        {
            "word": "release",
            "what": "writes what users get into the folder OUT: an archive, a Debian package, the desk, and what was proved",
            "more": [
                "It needs a clone whose gate passed for the commit that it is at, with nothing changed. What it writes",
                "needs no kit: the archive is for Node on any system, and was tried on Linux. Made again from the same",
                "commit it has the same bytes. SHA256SUMS has the sums, and PROVED says how to make it again."
            ],
            "names": [
                { "word": "OUT", "what": "a folder that isn't there yet", "kind": "folder" }
            ],
            "options": [],
            "examples": ["release railplan-release"],
            "takesLong": true
        },
        {
            "word": "setup",
            "what": "installs what a clone needs beside the kit, and says what each package is for",
            "more": [
                "It installs Debian's packages, which needs the rights of root. Else it names what is missing, and",
                "the line that installs it."
            ],
            "names": [],
            "options": [],
            "examples": ["setup"],
            "takesLong": true
        },
        {
            "word": "install",
            "what": "links railplan into PREFIX/bin, with its manual page and completions",
            "names": [
                { "word": "[PREFIX]", "what": "a folder, without it ~/.local", "kind": "folder" }
            ],
            "options": [],
            "examples": ["install ~/.local"]
        },
        {
            "word": "uninstall",
            "what": "takes away what install made",
            "names": [
                { "word": "[PREFIX]", "what": "the folder that install had", "kind": "folder" }
            ],
            "options": [],
            "examples": ["uninstall ~/.local"]
        }
    ],
    "ownOptions": [
        {
            "word": "--without", "value": "KIND,..", "takes": "word",
            "what": "leaves out kinds of changes",
            "choices": ["encoding", "doctype", "railml3", "prefix", "numbers", "offsets", "ids", "refs", "ends", "legs", "outside", "mileages", "joins"]
        },
        {
            "word": "--one-km", "takes": "nothing",
            "what": "counts all tracks that are joined as one, by lengths and orientations, so that the fewest mileages change"
        },
        {
            "word": "--hands", "value": "HOW", "takes": "word",
            "what": [
                "exchanges hands that the producer sees otherwise: of incoming switches, where it sees them along the",
                "track, or where track and branch turn to one hand and their radii say that the branch lies on the other side"
            ],
            "choices": ["along", "radii"]
        },
        { "word": "--list", "what": "says which stations there are, and writes nothing", "takes": "nothing" },
        { "word": "--from", "value": "KM", "what": "the least kilometre of the part that is wanted", "takes": "kilometres" },
        { "word": "--to", "value": "KM", "what": "the greatest kilometre of the part that is wanted", "takes": "kilometres" },
        {
            "word": "--tracks", "value": "NAME,..", "takes": "names",
            "what": "the tracks, by ids or names, whose switches and crossings make the station"
        },
        {
            "word": "-j",
            "value": "N",
            "what": "how many stations are drawn side by side",
            "takes": "number",
            "low": 1,
            "high": 1024,
            "usual": "as many as there are processors"
        },
        {
            "word": "--certify",
            "what": "checks each drawing's log, and leaves its trimmed lines beside the sheet",
            "takes": "nothing"
        },
        { "word": "--shard", "value": "I/N", "what": "the I-th of N parts of the stations", "takes": "shard" },
        { "word": "--join", "what": "draws nothing, and makes the one page of what all parts left", "takes": "nothing" }
    ],
    "criteria": ["height", "bends", "diagonal", "width"],
    "faults": ["NoCommand", "UnknownCommand", "MissingName", "ExtraWord", "UnknownOption", "RepeatedOption", "BadValue"],
    "mostSeed": 4294967295
};
