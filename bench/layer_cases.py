"""The section of a layer in the stdin and stdout of crates/ds2_layer_cases: a line `#### layer WORD`, and the text below it."""
import os

CASES = os.path.join(os.path.dirname(os.path.dirname(os.path.abspath(__file__))), "crates", "ds2_layer_cases")
HEADING = "#### layer "


def sections(name):
    """The word and the text of each section of `stdin` or `stdout`."""
    with open(os.path.join(CASES, name), encoding="utf-8", newline="") as file:
        parts = ("\n" + file.read()).removesuffix("\n").split("\n" + HEADING)[1:]
    for part in parts:
        word, _, text = part.partition("\n")
        yield word, text + "\n"


def read(name, layer):
    """The text of a layer in `stdin` or `stdout`."""
    return dict(sections(name))[layer]


def write(name, layer, text):
    """Puts a text in the place of that of a layer."""
    whole = "".join(f"{HEADING}{word}\n{text if word == layer else old}" for word, old in sections(name))
    with open(os.path.join(CASES, name), "w", encoding="utf-8", newline="") as file:
        file.write(whole)
