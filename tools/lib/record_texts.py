"""Random models whose messages are records: one process, which prints what it does."""

TYPES = ["bit", "bool", "byte", "short", "int", "mtype"]


def value_of(source, kind):
    """A value of a type."""
    return {"bit": str(source.randrange(2)), "bool": source.choice(["true", "false"]), "byte": str(source.randrange(256)), "short": str(source.randrange(-300, 300)),
            "int": str(source.randrange(-70000, 70000)), "mtype": source.choice(["red", "green"])}[kind]


class Model:
    """A model that is written piece by piece."""

    def __init__(self, source):
        self.source = source
        self.fields = [(source.choice(TYPES), "f%d" % at) for at in range(source.randrange(1, 5))]

    def typedef(self):
        """The typedef, with its fields on lines of their own, or by commas."""
        lines, last = [], None
        for kind, name in self.fields:
            if kind == last and self.source.randrange(2):
                lines[-1] += ", " + name
            else:
                lines.append("  %s %s" % (kind, name))
            last = kind
        return "typedef Rec {\n%s\n}\n" % self.source.choice([";\n", "\n"]).join(lines)

    def shown(self, record):
        """A line that prints a record."""
        return 'printf("%s=%s\\n", %s)' % (record, ",".join("%d" for _ in self.fields), ", ".join(record + "." + name for _, name in self.fields))

    def statement(self, depth):
        """A statement, with its lines."""
        one, other = self.source.sample(["one", "two", "three"], 2)
        channel = self.source.choice(["c", "d[1]"])
        name = self.source.choice(self.fields)
        kinds = ["set", "send", "receive", "show", "sort", "copy", "poll", "mixed"] + (["loop"] * 3 if depth < 2 else [])
        kind = self.source.choice(kinds)
        if kind == "set":
            return "%s.%s = %s\n" % (one, name[1], value_of(self.source, name[0]))
        if kind == "send":
            return "if\n:: nfull(%s) -> %s!%s\n:: full(%s) -> skip\nfi\n" % (channel, channel, one, channel)
        if kind == "sort":
            return "if\n:: nfull(c) -> c!!%s\n:: full(c) -> skip\nfi\n" % one
        if kind == "receive":
            return "if\n:: nempty(%s) -> %s%s%s\n:: empty(%s) -> skip\nfi\n" % (channel, channel, self.source.choice(["?", "??"]), one, channel) + self.shown(one) + "\n"
        if kind == "copy":
            return "if\n:: nempty(%s) -> %s?<%s>; skip\n:: empty(%s) -> skip\nfi\n" % (channel, channel, one, channel)
        if kind == "poll":
            return 'if\n:: c?[%s] -> printf("some=%%d\\n", len(c))\n:: empty(c) -> printf("none\\n")\nfi\n' % one
        if kind == "mixed":
            return "if\n:: nfull(e) -> e!red(7, %s, 9)\n:: full(e) -> e?red,_,%s,9\nfi\n" % (one, other)
        if kind == "loop":
            inner = "".join(self.statement(depth + 1) for _ in range(self.source.randrange(1, 3)))
            # a loop over a channel that the body sends to and receives from ends, as it counts
            return "for (%s in %s) {\n%s\n%s}\n" % (one, channel, self.shown(one), inner)
        return self.shown(one) + "\n"


def record_text(source):
    """A model."""
    model = Model(source)
    body = "".join(model.statement(0) for _ in range(source.randrange(3, 12)))
    head = "mtype = { red, green }\n%schan c = [%d] of { Rec }\nchan d[2] = [%d] of { Rec }\nchan e = [1] of { mtype, byte, Rec, byte }\n" % (model.typedef(), source.randrange(1, 4), source.randrange(1, 4))
    return (head + "init {\nRec one, two, three\n" + body + "".join(model.shown(it) + "\n" for it in ("one", "two", "three")) + "}\n").encode()
