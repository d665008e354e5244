"""What is known to be otherwise than it is to be, each with its sentence.

A script that sees such a thing goes on and says so. A script that looks for it and doesn't see it any more fails: then the
entry is to be taken out, so that it can't come back unseen."""

KNOWN: dict[str, str] = {
    "size of files": "A file that may not grow further ends the program alone by the signal XFSZ, and not with 6.",
    "signs of a picture": "An id with U+FFFE is in the bare program's picture as it is, which is no XML then; the launcher says so.",
}
