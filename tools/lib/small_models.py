"""Small random models that print one line at each of their ends: what the variables hold, and how many processes are left."""
import re

from .random_models import KINDS, NAMES, Maker


class SmallMaker(Maker):
    """Makes one small model from a seed. Its first process prints as soon as no other one can go on."""

    def declared(self):
        """The lines of one or two variables, and perhaps of an array, a structure and a channel."""
        lines = ["mtype = { red, green, blue }; mtype m = green;"] if self.has_mtype else []
        for k in range(self.by.randint(1, 2)):
            kind = self.by.choice(KINDS)
            name = NAMES[kind] + str(k)
            lines.append("%s %s%s = %d;" % (kind, name, " : 3" if kind == "unsigned" else "", self.by.randint(0, 1)))
            self.globals.append(name)
        if self.by.random() < 0.25:
            lines.append("%s a[2];" % self.one_of("byte", "short", "int"))
            self.arrays.append(("a", 2))
        if self.by.random() < 0.2:
            lines.append("typedef T { byte f; short g[2] }; T r;")
            self.globals += ["r.f", "r.g[1]"]
        if self.by.random() < 0.6:
            fields = self.by.choice((("byte",), ("short", "byte"), ("byte", "mtype") if self.has_mtype else ("int",)))
            lines.append("chan q0 = [%d] of { %s };" % (self.by.choice((0, 0, 1, 2)), ", ".join(fields)))
            self.channels.append(("q0", fields))
        return lines

    def simple(self, names):
        """A statement that is one step, and prints nothing."""
        roll = self.by.random()
        if self.channels and roll < 0.4:
            name, fields = self.by.choice(self.channels)
            if self.by.random() < 0.5:
                return "%s%s%s" % (name, self.one_of("!", "!", "!!"), self.sent(fields, names))
            return "%s%s%s" % (name, self.one_of("?", "?", "??"), self.taken(fields, names))
        if roll < 0.5:
            return "(%s)" % self.condition(names)
        if roll < 0.65:
            return self.variable(names) + self.one_of("++", "--")
        return "%s = %s" % (self.variable(names), self.value(names))

    def options(self, names, deep, end):
        """Options of which an `else` is none where one begins with a message: Spin refuses that."""
        text = super().options(names, deep, end)
        return re.sub(r" :: else -> [^:]*", "", text) if re.search(r":: q\d[!?]", text) else text

    def process(self, head, names, most):
        return "%s { byte k; %s }" % (head, self.statements(names, 1, most))

    def watch(self):
        """The process that prints at each end."""
        shown = self.globals + ["%s[%d]" % (name, k) for name, size in self.arrays for k in range(size)] + ["len(%s)" % name for name, _ in self.channels]
        return 'active proctype Watch() { timeout; printf("%s, %%d left\\n", %s, _nr_pr) }' % (" ".join("%d" for _ in shown), ", ".join(shown))

    def text(self):
        lines = self.declared()
        names = self.globals + ["m"] * self.has_mtype
        lines.append(self.watch())
        for k in range(self.by.randint(1, 2)):
            lines.append(self.process("active proctype P%d()" % k, names, 2))
        if self.by.random() < 0.3:
            lines.append("proctype Q(byte n) { %s }" % self.statements(names + ["n"], 0, 2))
            lines.append("init { run Q(%d) }" % self.by.randint(0, 3))
        return "\n".join(lines) + "\n"


def small_model_of(seed):
    """The text of a small random model."""
    return SmallMaker(seed).text()
