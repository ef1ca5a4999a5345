"""Random models of some processes that print what they do, in the language that Spin and this project read alike."""
import random

KINDS = ("byte", "short", "int", "bit", "unsigned")
NAMES = {"byte": "b", "short": "s", "int": "i", "bit": "t", "unsigned": "u"}


class Maker:
    """Makes one model from a seed."""

    def __init__(self, seed):
        self.by = random.Random(seed)
        self.globals, self.arrays, self.channels = [], [], []
        self.has_mtype = self.by.random() < 0.4
        self.labels = 0

    def one_of(self, *things):
        return self.by.choice(things)

    def declared(self):
        """The lines of the global declarations."""
        lines = []
        if self.has_mtype:
            lines.append("mtype = { red, green, blue }; mtype m = green;")
        for k in range(self.by.randint(1, 3)):
            kind = self.by.choice(KINDS)
            name = NAMES[kind] + str(k)
            width = " : %d" % self.by.randint(2, 9) if kind == "unsigned" else ""
            begins = " = %d" % self.by.randint(0, 3 if kind != "bit" else 1) if self.by.random() < 0.5 else ""
            lines.append("%s %s%s%s;" % (kind, name, width, begins))
            self.globals.append(name)
        if self.by.random() < 0.5:
            size = self.by.randint(2, 3)
            lines.append("%s a[%d];" % (self.one_of("byte", "short", "int"), size))
            self.arrays.append(("a", size))
        if self.by.random() < 0.35:
            lines.append("typedef T { byte f; short g[2] }; T r;")
            self.globals += ["r.f", "r.g[1]"]
        for k in range(self.by.randint(0, 2)):
            fields = self.by.choice((("byte",), ("short", "byte"), ("byte", "mtype") if self.has_mtype else ("int",)))
            lines.append("chan q%d = [%d] of { %s };" % (k, self.by.choice((0, 1, 2, 2)), ", ".join(fields)))
            self.channels.append(("q%d" % k, fields))
        return lines

    def variable(self, names):
        if self.arrays and self.by.random() < 0.3:
            name, size = self.by.choice(self.arrays)
            return "%s[%s]" % (name, self.by.randint(0, size - 1) if self.by.random() < 0.6 else "(%s & 1)" % self.by.choice(names))
        return self.by.choice(names)

    def value(self, names, depth=2):
        """An expression without a fault."""
        roll = self.by.random()
        if depth == 0 or roll < 0.35:
            return str(self.by.choice((0, 1, 1, 2, 3, 7, 100, 255, 300)))
        if roll < 0.65:
            return self.variable(names)
        if roll < 0.7:
            return self.one_of("_pid", "_nr_pr")
        if roll < 0.75:
            return "(%s -> %s : %s)" % (self.condition(names, depth - 1), self.value(names, depth - 1), self.value(names, depth - 1))
        if roll < 0.82:
            return "(%s%s)" % (self.one_of("-", "~", "!"), self.value(names, depth - 1))
        if roll < 0.9:
            return "(%s %s %d)" % (self.value(names, depth - 1), self.one_of("/", "%", "<<", ">>"), self.by.randint(1, 5))
        sign = self.one_of("+", "-", "*", "&", "|", "^", "+", "-")
        return "(%s %s %s)" % (self.value(names, depth - 1), sign, self.value(names, depth - 1))

    def condition(self, names, depth=1):
        roll = self.by.random()
        if self.channels and roll < 0.2:
            name = self.by.choice(self.channels)[0]
            return "%s(%s)" % (self.one_of("len", "empty", "full", "nempty", "nfull"), name)
        compared = "%s %s %s" % (self.value(names, depth), self.one_of("<", ">", "==", "!=", "<=", ">="), self.value(names, depth))
        return "(%s %s %s)" % (compared, self.one_of("&&", "||"), self.condition(names, 0)) if depth and roll > 0.85 else compared

    def sent(self, fields, names):
        return ", ".join(self.one_of("red", "blue", "m") if field == "mtype" else self.value(names, 1) for field in fields)

    def taken(self, fields, names):
        return ", ".join(self.one_of("m", "_", "green") if field == "mtype" else
                         self.one_of(self.by.choice(names), "_", str(self.by.randint(0, 2)), "eval(%s)" % self.by.choice(names)) for field in fields)

    def printed(self, names):
        """A line that says where it is printed, and what variables hold."""
        shown = self.by.sample(names, min(len(names), self.by.randint(1, 2)))
        forms = [self.one_of("%d", "%d", "%x", "%o", "%u") for _ in shown]
        return 'printf("%s %s\\n", %s)' % (self.one_of("p", "at", "="), " ".join(forms), ", ".join(shown))

    def simple(self, names):
        """A statement that is one step, or blocks."""
        roll = self.by.random()
        if self.channels and roll < 0.3:
            name, fields = self.by.choice(self.channels)
            if self.by.random() < 0.5:
                return "%s%s%s" % (name, self.one_of("!", "!", "!!"), self.sent(fields, names))
            return "%s%s%s" % (name, self.one_of("?", "?", "??"), self.taken(fields, names))
        if roll < 0.45:
            return self.printed(names)
        if roll < 0.5:
            return self.one_of("skip", "assert(%s)" % self.condition(names), "(%s)" % self.condition(names))
        if roll < 0.6:
            return self.variable(names) + self.one_of("++", "--")
        return "%s = %s" % (self.variable(names), self.value(names))

    def options(self, names, deep, end):
        parts = [":: %s%s" % (self.one_of("%s -> " % self.condition(names), "", ""), self.statements(names, deep - 1, 2)) for _ in range(self.by.randint(1, 2))]
        if self.by.random() < 0.5:
            parts.append(":: else -> " + self.statements(names, 0, 1))
        return " ".join(parts + end)

    def statement(self, names, deep):
        roll = self.by.random()
        if deep == 0 or roll < 0.55:
            return self.simple(names)
        if roll < 0.7:
            return "if %s fi" % self.options(names, deep, [])
        if roll < 0.78:
            return "do %s od" % self.options(names, deep, [":: break"])
        if roll < 0.84:
            return "atomic { %s }" % self.statements(names, deep - 1, 3)
        if roll < 0.9:
            whole = "; ".join("%s = %s" % (self.variable(names), self.value(names)) for _ in range(2))
            return "d_step { %s }" % whole
        if roll < 0.95:
            return "{ %s } unless { (%s) -> %s }" % (self.statements(names, 0, 2), self.condition(names), self.simple(names))
        return "for (k : 1 .. %d) { %s }" % (self.by.randint(1, 2), self.statements([name for name in names if name != "k"], 0, 2))

    def statements(self, names, deep, most):
        return "; ".join(self.statement(names, deep) for _ in range(self.by.randint(1, most)))

    def process(self, head, names, most):
        """A process with a counter and a variable of its own, which prints these at its end."""
        body = self.statements(names + ["k", "v"], 2, most)
        kind = self.one_of("byte", "short", "int")
        return '%s { byte k; %s v = %d; %s; printf("%s ends %%d %%d\\n", k, v) }' % (head, kind, self.by.randint(0, 5), body, head.split("(")[0].split()[-1])

    def text(self):
        lines = self.declared()
        processes = self.by.randint(1, 2)
        for k in range(processes):
            lines.append(self.process("%sproctype P%d(byte n)" % ("", k), self.globals + ["n"], 3))
        runs = "; ".join("run P%d(%d)" % (self.by.randrange(processes), self.by.randint(0, 4)) for _ in range(self.by.randint(1, 2)))
        body = self.statements(self.globals + ["k"], 1, 2)
        lines.append('init { byte k; %s; %s; if :: timeout -> skip :: _nr_pr == 1 -> skip fi; printf("%s\\n", %s) }'
                     % (runs, body, " ".join("%d" for _ in self.globals), ", ".join(self.globals)))
        return "\n".join(lines) + "\n"


def model_of(seed):
    """The text of a random model."""
    return Maker(seed).text()
