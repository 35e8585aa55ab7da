"""What a case of one file, exec/NAME.c, says of itself: tests/run has the form."""
import re

LINE = re.compile(r"// (words|input|out|err|status|real)(: |:|\+ |\+)(.*)")


def told(file):
    told = {"words": []}
    for line in file.read_text("ascii").splitlines():
        found = LINE.fullmatch(line)
        if found:
            what, sign, rest = found.groups()
            value = rest.encode().decode("unicode_escape").encode("latin-1") + (b"\n" if sign[0] == ":" else b"")
            told[what] = rest.split() if what == "words" else told.get(what, b"") + value
    return told
