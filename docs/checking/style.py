"""Plain English: how long the sentences of pages, heads and `///` are, words that they don't use, and how much there is to read."""
import re

from checking.crates import DOCUMENTS, TOP, crates, read, show, sources

MOST_WORDS = 20
WORDS_NOT_USED = ("due", "told", "stands", "is put", "was put", "are put", "were put")
MADE = TOP / "docs" / "made"
MOST_BYTES = 147_800
# pages with bounds of their own: words a sentence, lines, bytes
OWN_BOUNDS = {TOP / "README.md": (15, 120, None), TOP / "docs/trust/definitions.md": (None, None, 12_288), TOP / "crates/README.md": (None, None, 20_480),
              TOP / "THEOREM.md": (None, None, 30_000)}


def prose_of(text):
    """The paragraphs and entries of lists of a page, without its titles, tables, blocks and made parts."""
    text = re.sub(r"<!-- made: .*?<!-- end -->|^```.*?^```|^<!--.*?-->", "", text, flags=re.M | re.S)
    parts = re.split(r"\n\s*\n|\n(?=\s*- )", text)
    parts = [" ".join(part.split()).removeprefix("- ") for part in parts]
    return [part for part in parts if part and part[0] not in "#|!" and not part.startswith("*By*")]


def sentences_of(part):
    """The sentences of a paragraph; a piece of code counts as one word."""
    plain = re.sub(r"\*By\*.*", "", part)
    plain = re.sub(r"\[([^]]*)\]\([^)]*\)", r"\1", re.sub(r"`[^`]*`", "code", plain)).replace("*", "")
    return [sentence for sentence in re.split(r"(?<=[.?!:])\s+", plain) if re.search(r"\w", sentence)]


def pages():
    return [path for path in DOCUMENTS if MADE not in path.parents]


def words_a_sentence(text):
    """How many words a sentence of the page has, on average."""
    counts = [len(sentence.split()) for part in prose_of(text) for sentence in sentences_of(part)]
    return sum(counts) / len(counts) if counts else 0


def too_much():
    """The bytes of docs/ that are written by hand."""
    bytes_by_hand = sum(len(re.sub(r"<!-- made: .*?<!-- end -->", "", read(path), flags=re.S).encode())
                        for path in pages() if TOP / "docs" in path.parents)
    return [f"docs: {bytes_by_hand} bytes are written by hand, and {MOST_BYTES} are the most"] * (bytes_by_hand > MOST_BYTES)


def words_not_used(text):
    """The words of the list that a text has outside of its code, each with where it begins and the text without code."""
    plain = re.sub(r"`[^`]*`", lambda code: "`code`" + "\n" * code.group().count("\n"), text)
    found = [(place.start(), word, plain) for word in WORDS_NOT_USED
             for place in re.finditer(rf"(?<![`\w]){word.replace(' ', chr(92) + 's+')}(?![`\w])", plain, re.I)]
    return sorted(found)


def comments_of(path, mark):
    """A file's blocks of comment lines with this mark, each with the number of its first line."""
    found, inside = [], False
    for number, line in enumerate(read(path).splitlines(), 1):
        comment = line.strip()
        if not comment.startswith(mark):
            inside = False
            continue
        if not inside:
            found.append((number, []))
        found[-1][1].append(comment[len(mark):].strip())
        inside = True
    return [(number, "\n".join(lines)) for number, lines in found]


def shell_failures():
    """The words that no remark, name or message of the shell has, each where it is; texts of stored runs are the program's."""
    kinds, stored = (".js", ".c", ".html", ".css", ".md"), TOP / "shell" / "tests" / "pages" / "samples"
    files = [path for path in sorted((TOP / "shell").rglob("*")) if path.suffix in kinds and stored not in path.parents]
    words = re.compile(rf"(?<![a-zA-Z])({'|'.join(word.replace(' ', ' +') for word in WORDS_NOT_USED)})(?![a-zA-Z])", re.I)
    return [f"{show(path)}:{number}: the word `{found.group()}`" for path in files for number, line in enumerate(read(path).splitlines(), 1)
            for found in words.finditer(line)]


def comment_failures():
    """The crates whose heads (`//!`) or `///` have sentences that are too long, and the words that they don't use."""
    found = []
    for crate in crates():
        for mark, name in (("//!", "heads"), ("///", "`///`")):
            blocks = [(path, number, text) for path in sources(crate) for number, text in comments_of(path, mark)]
            count = words_a_sentence("\n\n".join(text for _, _, text in blocks))
            if count > MOST_WORDS:
                found.append(f"crates/{crate}: {count:.5g} words a sentence in {name}, and {MOST_WORDS} are the most")
            found += [f"{show(path)}:{number + plain[:start].count(chr(10))}: the word `{word}`"
                      for path, number, text in blocks for start, word, plain in words_not_used(text)]
    return found


def all_failures():
    found = too_much() + comment_failures() + shell_failures()
    for path in pages():
        text = read(path)
        most_words, most_lines, most_bytes = OWN_BOUNDS.get(path, (None, None, None))
        counts = [(words_a_sentence(text), most_words or MOST_WORDS, "words a sentence")]
        counts += [(len(text.splitlines()), most_lines, "lines"), (len(text.encode()), most_bytes, "bytes")]
        found += [f"{show(path)}: {count:.5g} {unit}, and {most} are the most" for count, most, unit in counts if most and count > most]
        for start, word, plain in words_not_used("\n".join(prose_of(text))):
            around = plain[max(0, start - 30):start + len(word) + 20].replace("\n", " ")
            found.append(f"{show(path)}: the word `{word}` in `{around}`")
    return found
