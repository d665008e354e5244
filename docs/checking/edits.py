"""Whether each must-fail edit can still be applied. The prover tries those of crates/; those of bench/edits are tried by hand."""
from checking.crates import TOP, read, show


def misfits(edit, crate):
    """Why an edit doesn't fit the crate: each text that it changes stands once in its file."""
    path, found, pairs = None, [], 0
    for line in read(edit).splitlines():
        if line.startswith("file: "):
            path = TOP / "crates" / crate / line[len("file: "):].strip()
            if not path.is_file():
                return [f"{show(edit)}: there is no {show(path)}"]
        elif line.startswith("old: ") and path:
            pairs += 1
            times = read(path).count(line[len("old: "):])
            if times != 1:
                found.append(f"{show(edit)}: a text that it changes stands {times} times in {show(path)}")
    return found or ([] if pairs else [f"{show(edit)}: it changes nothing"])


def all_failures():
    found = []
    for edit in sorted((TOP / "bench" / "edits").glob("*/*")):
        crate = edit.parent.name
        if edit.suffix != ".edit" or not (TOP / "crates" / crate).is_dir():
            found.append(f"{show(edit)}: it is no edit of a crate")
        elif (TOP / "crates" / crate / "must-fail" / edit.name).exists():
            found.append(f"{show(edit)}: the gate has an edit of this name")
        else:
            found += misfits(edit, crate)
    return found
