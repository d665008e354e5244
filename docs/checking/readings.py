"""What was read against what: each paragraph by hand, with the definitions that it names, as both were when somebody compared them.

No program sees whether a sentence says what a definition means. So a record is kept of each paragraph and of the text of the
definitions that it names. Where either is another one now, the paragraph is to be read again beside what it tells, and mended if it
needs it; `docs/check --read` then keeps the record anew, and says of which paragraphs. Each page has a row besides, which sees
headings, the order of paragraphs, those that went, and white space inside blocks."""
import csv
import hashlib
import re
from collections import defaultdict

from checking.crates import TOP, crates, read, show, spans, words_of
from checking.style import MADE, pages

RECORD = TOP / "docs" / "checking" / "read.csv"
WHOLE = "the page"
# pages whose sentences are no facts of the sources
LEFT_OUT = {"docs/work/style.md"}


def short(text):
    return hashlib.sha256(" ".join(text.split()).encode()).hexdigest()[:12]


def paragraphs(text):
    """The paragraphs, entries of lists, tables and blocks of a page, without what is made."""
    text = re.sub(r"<!-- made: .*?<!-- end -->", "", text, flags=re.S)
    parts = re.split(r"\n\s*\n(?![^`]*```\n(?!\n))|\n(?=- )", text)
    return [part.strip() for part in parts if part.strip() and not part.strip().startswith("#")]


def whole(text):
    """A page as one text: without what is made, and with white space kept in blocks alone."""
    text = re.sub(r"<!-- made: .*?<!-- end -->", "", text, flags=re.S)
    return "".join(part if part.startswith("```") else " ".join(part.split()) for part in re.split(r"(^```.*?^```)", text, flags=re.M | re.S))


def definitions():
    """The texts of the definitions of each name, of whichever crate."""
    found = defaultdict(list)
    for crate in crates():
        for word in words_of(crate):
            found[word.name].append(word.text)
    return found


def readings():
    """For each paragraph its page, itself, and what it names, as they are now."""
    known, found = definitions(), []
    for path in pages():
        name = str(show(path))
        if MADE in path.parents or name in LEFT_OUT:
            continue
        found.append((name, WHOLE, hashlib.sha256(whole(read(path)).encode()).hexdigest()[:12], WHOLE))
        for part in paragraphs(read(path)):
            named = sorted({word for span in spans(part) for word in re.findall(r"[A-Za-z_]\w*", span) if word in known})
            found.append((name, part, short(part), short("".join(text for word in named for text in known[word])) if named else "-"))
    return found


def recorded():
    if not RECORD.exists():
        return set()
    with RECORD.open(encoding="utf-8", newline="") as text:
        return {tuple(row) for row in csv.reader(text)}


def unread():
    """The paragraphs that aren't as they were when they were read, or what they name isn't."""
    known = recorded()
    paragraphs_known = {(page, own) for page, own, _ in known}
    found, changed = [], set()
    for page, part, own, named in sorted(readings(), key=lambda row: row[1] == WHOLE):
        if (page, own, named) not in known and part == WHOLE:
            found += [] if page in changed else [(page, "its headings, or the order or the number of its paragraphs", "they changed")]
        elif (page, own, named) not in known:
            changed.add(page)
            why = "what it names changed" if (page, own) in paragraphs_known else "it is new or changed"
            found.append((page, part, why))
    return found


def all_failures():
    return [f"{page}: to be read beside what it tells ({why}), and then docs/check --read: {' '.join(part.split())[:70]}"
            for page, part, why in unread()]


def keep():
    """Keeps the record anew, and says of which paragraphs."""
    for page, part, _ in unread():
        print(f"read: {page}: {' '.join(part.split())[:100]}")
    rows = sorted({(page, own, named) for page, _, own, named in readings()})
    with RECORD.open("w", encoding="utf-8", newline="") as text:
        csv.writer(text, lineterminator="\n").writerows(rows)
