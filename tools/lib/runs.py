"""Reads the worked runs of crates/worked_runs from its proofs: each with its model's tokens, options, choices, and what its theorem states."""
import collections
import glob
import os
import re

TOP = os.path.dirname(os.path.dirname(os.path.dirname(os.path.abspath(__file__))))
LISTS = os.path.join(TOP, "crates", "worked_runs", "runs")
Run = collections.namedtuple("Run", "name tokens flags limit choices output record status read comment block")
ESCAPES = {"n": "\n", "t": "\t", '"': '"', "\\": "\\"}
STRING = r'"(?:[^"\\]|\\.)*"'
BYTES = r"\(\s*(?:codes\s+%s|text\s*\((?:\s*%s\s*∷)*\s*\[\]\s*\))\s*\)" % (STRING, STRING)
ROW = re.compile(r"^row-(\S+)\s*:\s*seen\s*\(options\s+(\w+)\s+(\w+)\s+(\w+)\s+(\d+)\)\s*model-(\S+)\s*(%s)\s*≡\s*Some\s*\(whole\s*(%s)\s*(%s)\s*(\d+)\s+(\d+)\)"
                 % (BYTES, BYTES, BYTES), re.M)
TOKEN = re.compile(r"on\s+(\d+)\s+kind\.(\w+)\s+(%s)\s*∷" % STRING)
BLOCK = re.compile(r"^-- (?=no options$|-\S)", re.M)


def unquoted(string):
    """The bytes of a string, as text of the first 256 characters."""
    return re.sub(r"\\(.)", lambda found: ESCAPES[found.group(1)], string[1:-1])


def bytes_of(term):
    """The bytes of a term `codes ".."` or `text (".." ∷ .. [])`."""
    return "".join(unquoted(found) for found in re.findall(STRING, term))


def text_of(tokens):
    """A text with these tokens, each on its line, a space between."""
    out, at = [], 1
    for line, _, word in tokens:
        out.append("\n" * (line - at) if line > at else " " if out else "")
        at = line
        out.append(word)
    return "".join(out) + "\n"


def files():
    """The files of runs, by name."""
    for path in sorted(glob.glob(os.path.join(TOP, "crates", "worked_runs", "proofs", "*.antt"))):
        with open(path, encoding="utf-8") as file:
            text = file.read()
        if re.search(r"^row-\S+\s*:", text, re.M):
            yield os.path.basename(path)[:-len(".antt")], text


def runs_of(text):
    """The runs of a file. Each begins with a comment of its options and its model, and has its tokens, its model and its theorem."""
    parts = BLOCK.split(text)
    for part in parts[1:]:
        block = "-- " + part
        found = ROW.search(block)
        if not found:
            raise ValueError("no theorem is read behind %r" % block[:200])
        name, p, g, l, limit, model, choices, output, record, status, read = found.groups()
        tokens = re.search(r"^tokens-%s\s*=(.*?)\[\]\n\n" % re.escape(model), block, re.M | re.S)
        comment = re.match(r"(?:--.*\n)+", block).group().split("\n")[1:-1]
        words = [(int(line), kind, unquoted(string)) for line, kind, string in TOKEN.findall(tokens.group(1))]
        flags = [flag for flag, given in (("-p", p), ("-g", g), ("-l", l)) if given == "true"]
        yield Run(name, words, flags, int(limit), bytes_of(choices), bytes_of(output), bytes_of(record), int(status), int(read), comment, block)


def theorems(text):
    """How many theorems a file has, counted by their names alone."""
    return len(re.findall(r"^row-\S+\s*:", text, re.M))
