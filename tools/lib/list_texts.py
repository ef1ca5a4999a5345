"""Random models with lists of initialisers and with labels in inlines: one process, which prints what it does."""

NAMES = ["again", "out", "next", "last"]


class Model:
    """A model that is written piece by piece."""

    def __init__(self, source):
        self.source = source
        self.arrays = []
        self.inlines = []
        self.used = {}

    def value(self, kind):
        """A constant of a type, as Spin has it in a list."""
        return {"bit": str(self.source.randrange(2)), "bool": self.source.choice(["true", "false", "1", "0"]), "byte": str(self.source.randrange(256)),
                "short": str(self.source.randrange(30000)), "int": str(self.source.randrange(70000)), "mtype": self.source.choice(["red", "green", "blue"])}[kind]

    def array(self, name):
        """An array with its list, which is shorter than it, or longer, or of one value alone."""
        kind = self.source.choice(["bit", "bool", "byte", "short", "int", "mtype"])
        size = self.source.randrange(1, 6)
        count = self.source.randrange(1, 7)
        values = [self.value(kind)] * count if self.source.randrange(3) == 0 else [self.value(kind) for _ in range(count)]
        self.arrays.append((name, size))
        blank = self.source.choice([" ", "\n  ", ""])
        return "%s %s[%d] = {%s%s }%s\n" % (kind, name, size, blank, ("," + self.source.choice([" ", "\n", ""])).join(values), self.source.choice(["", ";"]))

    def shown(self):
        """Prints all elements."""
        return "".join('printf("%s=%s\\n", %s);\n' % (name, ",".join(["%d"] * size), ", ".join("%s[%d]" % (name, at) for at in range(size))) for name, size in self.arrays)

    def inline(self, number):
        """An inline, with labels of its own, which calls earlier ones. Spin takes its labels for theirs, where they have the same."""
        body, labels = "x++;\n", self.source.sample(NAMES, self.source.randrange(0, 3))
        others = [it for it in self.inlines if not self.used[it] & set(labels)]
        self.used[number] = set(labels)
        for label in labels:
            if others and self.source.randrange(2):
                body += self.call(others, number)
            if self.source.randrange(2):
                body += "%s: x = x + n;\nif\n:: x %% %d != 0 -> goto %s\n:: else\nfi;\n" % (label, self.source.randrange(2, 5), label)
            else:
                body += "if\n:: x %% 2 == n %% 2 -> goto %s\n:: else -> x++\nfi;\n" % label
                if others and self.source.randrange(2):
                    body += self.call(others, number)
                body += 'printf("passed=%%d\\n", x);\n%s: x = x + 1;\n' % label
        self.inlines.append(number)
        return "inline f%d(n) {\n%s%sx++\n}\n" % (number, body, 'printf("x=%d\\n", x);\n')

    def call(self, others, home):
        """A call of one of these inlines."""
        other = self.source.choice(others)
        self.used[home] = self.used.setdefault(home, set()) | self.used[other]
        return "f%d(1);\n" % other

    def statement(self):
        """A statement of the process."""
        name, size = self.source.choice(self.arrays)
        kind = self.source.randrange(5)
        if kind == 0:
            return "%s[%d] = %s[%d];\n" % (name, self.source.randrange(size), name, self.source.randrange(size))
        if kind == 1:
            return "x = x + %s[%d];\n" % (name, self.source.randrange(size))
        return self.call(self.inlines, None) if kind < 4 else self.shown()


def list_text(source):
    """A model."""
    model = Model(source)
    head = "mtype = { red, green, blue };\nint x;\n" + "".join(model.array("g%d" % at) for at in range(source.randrange(1, 4)))
    head += "".join(model.inline(at) for at in range(source.randrange(1, 4)))
    locals_ = "".join(model.array("l%d" % at) for at in range(source.randrange(0, 3)))
    body = model.shown() + "".join(model.statement() for _ in range(source.randrange(3, 10))) + model.call(model.inlines, None)
    own = source.choice([it for it in NAMES if it not in model.used[None]] + [None])
    if own:
        body += "x = x %% 16;\n%s: x++;\nif\n:: x %% 5 != 0 -> goto %s\n:: else\nfi;\n" % (own, own)
    begin = source.choice(["init {\n", "active proctype Only() {\n"])
    return (head + begin + locals_ + body + model.shown() + 'printf("x=%d\\n", x)\n}\n').encode()
