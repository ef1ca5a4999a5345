"""Models as the terms of crates/worked_runs, and what is around them in a file of theorems."""
import os
import re
import subprocess
import sys

from . import runs

MODELS = os.path.join(runs.TOP, "tools", "lib", "model", "run")
WIDTH = 132


def folded(line):
    """The lines that a long one is broken into, at spaces outside quotes."""
    if len(line) <= WIDTH + 8:
        return [line]
    pad = " " * (len(line) - len(line.lstrip()) + 2)
    out, now = [], line[:len(line) - len(line.lstrip())]
    for word in re.findall(r'(?:"(?:[^"\\]|\\.)*"|[^\s"])+\s*', line.lstrip()):
        if now.strip() and len(now) + len(word.rstrip()) > WIDTH:
            out.append(now.rstrip())
            now = pad
        now += word
    return out + [now.rstrip()]


def comment_lines(text):
    """A text as comment lines, long ones broken."""
    out = []
    for line in text.split("\n"):
        line = re.sub(r"[\t\r\v\f]", " ", line)
        while len(line) > WIDTH:
            cut = line.rfind(" ", 0, WIDTH)
            cut = cut if cut > WIDTH // 2 else WIDTH
            out.append("-- " + line[:cut])
            line = "    " + line[cut:].lstrip(" ")
        out.append(("-- " + line).rstrip())
    return out
def pieces(line):
    """A line of output as the pieces in which it is written."""
    return [line[i:i + 110] for i in range(0, len(line), 110)]


def quoted(text):
    out = ""
    for b in text.encode("latin-1"):
        c = chr(b)
        out += {"\n": "\\n", "\t": "\\t", '"': '\\"', "\\": "\\\\"}.get(c, c)
    return '"' + out + '"'


def wrapped(parts, indent):
    """Parts of a list with ∷ between, several a line."""
    pad, lines, line = "  " * indent, [], ""
    for p in parts:
        piece = p + " ∷ "
        if line and len(pad) + len(line) + len(piece) > WIDTH:
            lines.append(pad + line.rstrip())
            line = ""
        line += piece
    return lines + [pad + line + "[]"]


def models_of(rows):
    """The model of each row's text: the lines of its tokens, and of the fields of its record, of which a refused text has none."""
    texts = "\0".join(row["model"] for row in rows).encode("latin-1")
    done = subprocess.run([MODELS], input=texts, stdout=subprocess.PIPE, check=False)
    if done.returncode:
        sys.exit("the models are not printed: tools/lib/model/run failed")
    parts = [[]]
    for line in done.stdout.decode("utf-8").split("\n"):
        if line:
            parts[-1].append(line)
        else:
            parts.append([])
    return list(zip(parts[::2], parts[1::2]))


def model_lines(name, model):
    """The lines of a text's tokens and of its model."""
    words, fields = model
    tokens = "tokens-" + name
    out = [tokens + " : List Word", tokens + " =", *wrapped(words, 1), ""]
    out += ["model-" + name + " : Program", "unfolding " + tokens, "model-" + name + " ="]
    out += ["  let at : ℕ → Word = token_at %s in" % tokens, "  let part : ℕ → ℕ → List Word = tokens_between %s in" % tokens, "  record {"]
    out += [("    " if re.match(r"\w+ =", line) else "      ") + line for line in fields]
    return out + ["  }"]


def bytes_term(text):
    several = [text[i:i + 50] for i in range(0, len(text), 50)]
    return "(codes %s)" % quoted(text) if len(several) < 2 else "(text (" + " ∷ ".join(quoted(p) for p in several) + " ∷ []))"


def lines_text(lines):
    several = [p for l in lines for p in pieces(l)]
    between = "\n      " if len(several) > 1 else " "
    return (between if len(several) > 1 else "") + "".join(quoted(p) + " ∷" + between for p in several) + "[]"


IMPORTS = [
    ("Rattle.std.proofs.Common", "◌≡◌ ℕ List [] ◌∷◌ Bool true false refl Option Some None"),
    ("Rattle.std.specs.Prelude", "codes pos negsuc"),
    ("Rattle.pml_token.specs.Word", "Word"),
    ("Rattle.pml_tree.specs.declared.tree.Search.TheVariants", "First Matching"),
    ("Rattle.pml_tree.specs.declared.tree.Removal.TheVariants", "Remove Keep"),
    ("Rattle.pml_tree.specs.declared.tree.SendOrder.TheVariants", "Fifo Sorted"),
    ("Rattle.pml_program.specs.declared.program.Program", "Program"),
    ("Rattle.pml_program.specs.declared.program.Basic", "Goto Break"),
    ("Rattle.worked_runs.specs.Seen", "seen"),
    ("Rattle.worked_runs.proofs.Models",
     "on token_at tokens_between bit bool byte chan mtype pid short int slot fields turn in_local in_global local global number read run"
     " assign holds stmt plain labelled block atomic d_step if_fi do_od unless process options text whole"),
    ("Rattle.worked_runs.proofs.Same", "computes sees"),
]
ALIASES = [
    ("Rattle.pml_token.specs.declared.token.Kind.TheVariants", "kind"),
    ("Rattle.pml_tree.specs.declared.tree.Infix.TheVariants", "op"),
    ("Rattle.pml_tree.specs.declared.tree.Prefix.TheVariants", "before"),
    ("Rattle.pml_tree.specs.declared.tree.Fill.TheVariants", "fill"),
    ("Rattle.pml_program.specs.declared.form.Form.TheVariants", "form"),
    ("Rattle.pml_program.specs.declared.expr.Expr.TheVariants", "expr"),
    ("Rattle.pml_program.specs.declared.expr.Want.TheVariants", "want"),
    ("Rattle.pml_program.specs.declared.program.Initial.TheVariants", "initial"),
    ("Rattle.pml_program.specs.declared.program.Action.TheVariants", "action"),
]


def header(title, body, more=()):
    """The first lines of a file: the imports of what the body writes, of `more` too."""
    bare = re.sub(r'"(?:[^"\\\n]|\\.)*"|(?m:^--.*$)', " ", body)
    words = set(re.findall(r"[^\s(){};]+", bare))
    out = [title]
    for module, names in (*IMPORTS, *more):
        used = [n for n in names.split() if n in words or n in ("◌≡◌", "◌∷◌", "[]") and n.strip("◌") in bare]
        if used:
            out.append("use %s.{%s}" % (module, ", ".join(used)))
    for module, name in ALIASES:
        if re.search(r"(?<![\w.])%s\." % name, bare):
            out.append("use %s as %s" % (module, name))
    return out
