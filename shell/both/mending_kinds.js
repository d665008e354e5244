/**
 * The table of the changes that `prepare` makes, in its order: the word of each kind, what is in the file, and what is written.
 * Behind `export default` it is one JSON text.
 */
export default [
    { "word": "encoding", "found": "UTF-16, ISO-8859-1 or windows-1252", "written": "UTF-8" },
    { "word": "doctype", "found": "a DOCTYPE without entities", "written": "nothing" },
    {
        "word": "railml3",
        "found": "infrastructure of railML 3.1 or 3.2: net elements, net relations, switches, crossings, buffer stops, signals",
        "written": "tracks of railML 2, each switch with the hands of its leftBranch and rightBranch"
    },
    {
        "word": "prefix",
        "found": "a prefix at the elements that are read, as rail:",
        "written": "no prefix; elements of another namespace without one get own:"
    },
    {
        "word": "numbers",
        "found": "metres with a comma, an exponent, or more than six decimals",
        "written": "a point, and up to six digits"
    },
    { "word": "offsets", "found": "absPosOffset", "written": "absPos with it added" },
    { "word": "ids", "found": "ids of more than 64 bytes, or with blanks", "written": "others; old and new ones are listed" },
    {
        "word": "refs",
        "found": "a ref that names a switch, an end or a track",
        "written": "the id of the connection there that refers back"
    },
    {
        "word": "ends",
        "found": "an end that says nothing, or refers to what isn't in the file",
        "written": "openEnd, unless another connection may be meant"
    },
    {
        "word": "legs",
        "found": "a three-way switch; a switch at its track's end that has both legs as connections",
        "written": "two switches half a metre apart; the straight leg as the track's end"
    },
    {
        "word": "outside",
        "found": "a switch up to a decimetre outside its track, as by rounding",
        "written": "one inside, its mileage moved as far"
    },
    {
        "word": "mileages",
        "found": "a begin without absPos that is joined to a point with one; a signal without one where mileages fall",
        "written": "absPos"
    },
    {
        "word": "joins",
        "found": "tracks that are cut at each switch",
        "written": "one track; a part that is counted the other way is turned, with all that is at it"
    }
];
