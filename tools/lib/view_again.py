"""The chart, the page and the transcript of a run, made of its lines of JSON: a second reading of docs/VIEW.md and docs/FORMATS.md, which uses nothing of the
programs."""
import json
import os
import re

PAGE = os.path.join(os.path.dirname(os.path.abspath(__file__)), "..", "..", "crates", "view_page", "page.html")
SIGNS = {"send": "!", "pass": "!", "receive": "?", "read": "?<>", "lose": "!!lost "}


# ---- the chart

def cut(label, most):
    """A label of at most so many bytes; the last one of a longer label is a mark."""
    return label if len(label) <= most else label[:most - 1] + "~" if most > 0 else ""


class Chart:
    """Rows of columns, one for each process."""

    def __init__(self, lines):
        self.start, self.steps, self.end = lines[0], [line for line in lines if line["event"] == "step"], lines[-1]
        self.proctypes = {proctype["name"] for proctype in self.start["proctypes"]}
        self.names = {}
        self.learn(self.start)
        most = max([len(self.start["processes"]), *[step["alive"] for step in self.steps]])
        self.width = min(max(73 // most, 12), 24)

    def learn(self, line):
        """The names of channels, without their processes."""
        for channel in line.get("channels", []):
            owner = re.match(r"([A-Za-z_:]\w*:?)\[\d+\]\.", channel["name"])
            is_local = owner and owner[1] in self.proctypes
            self.names[channel["chan"]] = channel["name"][owner.end():] if is_local else channel["name"]

    def column(self, mark, label=""):
        return (mark + cut(label, self.width - 2)).ljust(self.width)

    def row(self, step, columns):
        return ("%6d %s" % (step, columns)).rstrip(" ") + "\n"

    def living(self, count):
        return self.column("|") * count

    def birth(self, step, process):
        return self.row(step, self.living(process["proc"]) + self.column("+", "%s %d" % (process["name"], process["proc"])))

    def arrow(self, sender, receiver, label, alive):
        low, high = min(sender, receiver), max(sender, receiver)
        room = self.width * (high - low) - 3
        shaft = cut(label, room).ljust(room, "-")
        return self.living(low) + ("|-%s>" if sender < receiver else "|<%s-") % shaft + self.living(alive - high)

    def act(self, line, alive):
        """The row of a step that ends a process or passes a message, if it does."""
        process, does = line["proc"], line["does"]
        if does == "end":
            return self.row(line["step"], self.living(process) + self.column("x"))
        if does not in SIGNS:
            return ""
        fields = [str(field["chan"]) if isinstance(field, dict) else str(field) for field in line["message"]]
        label = self.names[line["chan"]] + SIGNS[does] + ",".join(fields)
        if does == "pass":
            return self.row(line["step"], self.arrow(process, line["to"]["proc"], label, alive))
        return self.row(line["step"], self.living(process) + self.column("*", label) + self.living(alive - process - 1))

    def text(self):
        out = "".join(self.birth(0, process) for process in self.start["processes"])
        alive = len(self.start["processes"])
        for line in self.steps:
            out += self.act(line, alive)
            self.learn(line)
            out += "".join(self.birth(line["step"], process) for process in line.get("processes", []) if process["proc"] >= alive)
            alive = line["alive"]
        return out + "%6d end: %s, steps %d\n" % (self.end["steps"], self.end["end"], self.end["steps"])


# ---- words of a move

def move_text(line):
    text = "proc %d (%s) line %d [%s]" % (line["proc"], line["name"], line["line"], line["text"])
    return text + (" -> " + move_text(line["to"]) if "to" in line else "")


# ---- the transcript

def value_lines(line, older):
    """What a step changed, as spinplay shows it with -g and -l; `older` processes were there before it."""
    number = lambda value: value["chan"] if isinstance(value, dict) else value
    out = "".join("global %s = %s\n" % (path, number(value)) for path, value in line.get("globals", {}).items())
    for process in line.get("processes", []):
        if process["proc"] < older:
            out += "".join("local %d (%s) %s = %s\n" % (process["proc"], process["name"], path, number(value)) for path, value in process["locals"].items())
    return out


def last_lines(line):
    """How a run ends."""
    if line["end"] in ("valid", "invalid"):
        return "end: %s, steps %d\n" % (line["end"], line["steps"]) + "".join("at: proc %d (%s) line %d\n" % (p["proc"], p["name"], p["line"]) for p in line["at"])
    return "" if line["end"] == "fault" else "stop: %s, steps %d\n" % (line["end"], line["steps"])


def transcript(lines):
    """What spinplay -p -g -l prints of a run that its choices or its moves end."""
    out, older = "", len(lines[0]["processes"])
    for line in lines[1:]:
        if line.get("of", 1) > 1:
            out += "".join("choice %d: %s\n" % (at + 1, move) for at, move in enumerate(line["moves"])) + "choose 1..%d\n" % line["of"]
        if line["event"] == "step":
            out += "step %d: %s\n" % (line["step"], move_text(line)) + line.get("printed", "") + value_lines(line, older)
            older = line["alive"]
        elif line["event"] == "fault":
            out += "fault F%d (%s): step %d: %s\n" % (line["fault"], line["words"], line["step"], move_text(line))
        else:
            out += last_lines(line)
    return out


# ---- the page

def shown(text):
    """What others wrote, as a terminal is shown it."""
    text = re.sub("[\u200b-\u200f\u2028-\u202e\u2066-\u2069\ufeff]", lambda sign: "\\u{%04x}" % ord(sign[0]), text.replace("\r", ""))
    return re.sub("[\x00-\x08\x0b-\x1f\x7f-\x9f]", "?", text)


def escaped(text):
    text = shown(text)
    for sign, name in ("&", "&amp;"), ("<", "&lt;"), (">", "&gt;"), ('"', "&quot;"):
        text = text.replace(sign, name)
    return text


def quoted(text):
    signs = {"\n": "\\n", "\t": "\\t", "\\": "\\\\", '"': '\\"'}
    return '"%s"' % "".join(signs.get(c) or ("\\x%02x" % ord(c) if ord(c) < 32 or ord(c) == 127 else c) for c in text)


def item(line):
    """A line as an item of the list that is read without scripts."""
    if line["event"] == "step":
        choice = ", choice %d of %d" % (line["choice"], line["of"]) if line["of"] > 1 else ""
        printed = ", prints " + quoted(line["printed"]) if "printed" in line else ""
        return "<li>%s</li>\n" % escaped(move_text(line) + choice + printed)
    if line["event"] == "fault":
        return "<li>%s: fault F%d (%s)</li>\n" % (escaped(move_text(line)), line["fault"], line["words"])
    return "<li>end: %s</li>\n" % line["end"] if line["event"] == "end" and line["end"] != "fault" else ""


def items(text):
    """The list of a page's steps, of the lines of JSON of its run."""
    return "".join(item(json.loads(line)) for line in text.splitlines())


def page(name, model, text, steps):
    """The page of a model with this name, these lines of JSON and this list of steps."""
    with open(PAGE, encoding="utf-8") as file:
        template = file.read()
    parts = {"TITLE": escaped(name), "SOURCE": escaped(model), "STEPS": steps, "LINES": text.replace("<", "\\u003c")}
    return re.sub("@(TITLE|SOURCE|STEPS|LINES)@", lambda found: parts[found[1]], template)
