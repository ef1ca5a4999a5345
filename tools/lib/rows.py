"""Reads the rows of crates/test_sessions from its files: each a model with flags and choices, and what its session answers. docs/ROWS.md has their form.
'python3 tools/lib/rows.py' prints how many rows each file has, as crates/test_sessions/stdout has to say. 'python3 tools/lib/rows.py test_layers' prints
how many rows of each layer there are, as crates/test_layers/stdout has to say."""
import collections, os, re, sys

Row = collections.namedtuple("Row", "name flags model choices read output status record")
TOP = os.path.dirname(os.path.dirname(os.path.dirname(os.path.abspath(__file__))))
# what rows of each layer want
LAYERS = {
    "tokens": ["tokens", "count"],
    "grammar": ["parsed", "parsed-as-cut", "expressions"],
    "conditions": ["condition"],
    "names": ["model", "statements"],
    "graphs": ["graph", "levels", "texts", "marks"],
    "values": ["first-state", "created", "results", "printed", "state-behind"],
    "value lines": ["values", "local-values", "logged-values"],
    "command lines": ["words"],
}
ESCAPES = {"n": "\n", "t": "\t", "r": "\r", "f": "\f", "\\": "\\"}
# rows that no program is swept with: those of long sessions, of devices that fail, and of the form of rows
APART = ["large.txt", "failing.txt", "forms.txt"]


def unescaped(text):
    return re.sub(r"\\(.)", lambda found: ESCAPES[found.group(1)], text)


def repeated(text):
    """A text with each of its pieces as often as it says."""
    numbered = lambda piece, number: piece.replace("##", str(number + 1)).replace("#", str(number))
    return re.sub(r"@\((\d+) (.*?)@\)", lambda found: "".join(numbered(found.group(2), number) for number in range(int(found.group(1)))), text, flags=re.S)


def parts_of(block):
    """The name of a block, and its parts by their words: the text behind each, or the lines below it."""
    name, *parts = block.split("\n-- ")
    texts = {}
    for part in parts:
        head, lines, below = part.partition("\n")
        word, space, behind = head.partition(" ")
        texts[word] = below + "\n" if lines else behind + "\n" if space and word == "output" else behind
    return name, texts


def pairs_of(texts):
    """What stands for `@this` and for `@that` in each row of a block."""
    return [line.split(" => ") for line in texts.get("each", " => ").strip("\n").split("\n")]


def rows_of(block):
    """The rows of a block: one, or one for each line of its part `each`."""
    name, texts = parts_of(block)
    for this, that in pairs_of(texts):
        text = lambda word: repeated(texts.get(word, "").replace("@that", that).replace("@this", this))
        choices = unescaped(text("choices"))
        rest = unescaped(text("unread")) if "choices" in texts or "unread" in texts else "7\n"
        title = name + (": " + this if this else "")
        yield Row(title, text("flags").split(), text("model"), (choices + rest).encode("latin-1"), len(choices), text("output"), int(text("status")), unescaped(text("record")).encode("latin-1"))


def file_names(crate="test_sessions"):
    """The names of the files, as the program is given them."""
    with open("%s/crates/%s/args" % (TOP, crate), encoding="utf-8") as file:
        names = file.read().split()
    if names != sorted(os.listdir("%s/crates/%s/data" % (TOP, crate))):
        sys.exit("rows.py: crates/%s/args does not have the names of crates/%s/data, in order" % (crate, crate))
    return names


def blocks_of(name, crate="test_sessions"):
    with open("%s/crates/%s/data/%s" % (TOP, crate, name), encoding="utf-8", newline="") as file:
        return ("\n" + file.read()[:-1]).split("\n== ")[1:]


def all_rows(names=None):
    """All rows that any program can be swept with, in the order of the files' names, or those of these files."""
    for name in names or [name for name in file_names() if name not in APART]:
        for block in blocks_of(name):
            yield from rows_of(block)


def count_of_layer(texts, words):
    """How many rows of a layer a block has, of these words."""
    lines = lambda word: len(texts[word].rstrip("\n").split("\n"))
    if "signs" in texts:
        return lines("signs") * (1 + 2 * lines("signs")) if "tokens" in words else 0
    if "beginnings" in texts:
        return lines("beginnings") if "tokens" in words else 0
    return sum(word in texts for word in words) * (lines("each") if "each" in texts else 1)


def print_layers():
    blocks = [parts_of(block)[1] for name in file_names("test_layers") for block in blocks_of(name, "test_layers")]
    for layer, words in LAYERS.items():
        print("%s: %d rows passed" % (layer, sum(count_of_layer(texts, words) for texts in blocks)))


if __name__ == "__main__" and sys.argv[1:] == ["test_layers"]:
    print_layers()
elif __name__ == "__main__":
    for name in file_names():
        print("%s: %d rows passed" % (name, sum(len(pairs_of(parts_of(block)[1])) for block in blocks_of(name))))
