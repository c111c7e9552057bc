"""The single cases of a test program, read from its source: the lines of its texts, or the arguments of its calls of a function."""
import os
import re

CRATES = os.path.join(os.path.dirname(os.path.abspath(__file__)), "..", "crates")

MOST = 2**64 - 1


def sources(crate):
    """The text of each file of a crate."""
    folder = os.path.join(CRATES, crate, "src")
    for file in sorted(os.listdir(folder)):
        with open(os.path.join(folder, file), encoding="utf-8") as source:
            yield source.read()


def lines(crate):
    """The lines of each byte string that goes over several lines."""
    for source in sources(crate):
        for text in re.finditer(r'b"([^"]*\\\n[^"]*)"', source):
            yield from re.sub(r"\\\n *", "", text[1]).replace("\\n", "\n").splitlines()


def numeral(word):
    return MOST if word == "most" else int(word)


def calls(crate, name):
    """The arguments of each call of `name` that is a statement of its own, file by file."""
    for source in sources(crate):
        for call in re.finditer(r"^    %s\((.*?)\);\n" % name, source, re.S | re.M):
            args = re.sub(r"\\\n\s*", "", call[1])
            args = re.sub(r"&\[(\d+); (\d+)\]", r"[\1] * \2", args).replace("&[", "[")
            args = re.sub(r"\w+::(\w+)\(", r"('\1', ", args)
            args = re.sub(r"\w+::(\w+)", r"('\1', 0)", args)
            yield eval("(" + args.strip().rstrip(",") + ",)", {"most": MOST})
