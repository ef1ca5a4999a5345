"""Models with names that several blocks and several calls declare, as Spin takes them: no name is declared while another declaration of it is in force."""


class Blocks:
    """One model by chance, of one process, which prints what its variables hold."""

    def __init__(self, draw, with_values):
        self.draw = draw
        self.with_values = with_values
        # of each inline: how many parameters, and the names that it and those that it calls declare
        self.inlines = []
        # the counters of loops, which nothing else changes
        self.counters = set()

    def name(self, taken):
        """A name that no declaration in force has."""
        free = [it for it in "ijkmnt" if it not in taken]
        return self.draw.choice(free) if free else None

    def value(self, seen):
        """A small expression."""
        one = str(self.draw.randint(0, 9))
        return self.draw.choice([one] + ["%s + %s" % (it, one) for it in seen])

    def declared(self, name, seen):
        """A declaration, and what gives the variable its value."""
        word = self.draw.choice(("byte", "int", "short"))
        if self.with_values and self.draw.random() < 0.7:
            return ["%s %s = %s" % (word, name, self.value(seen))]
        if self.with_values and self.draw.random() < 0.5:
            return ["%s %s" % (word, name)]
        return ["%s %s" % (word, name), "%s = %s" % (name, self.value(seen))]

    def printed(self, seen):
        """What prints all that is seen."""
        return "printf(\"%s\\n\"%s)" % (" ".join("%s=%%d" % it for it in seen) or "none", "".join(", " + it for it in seen))

    def statement(self, seen, taken, depth):
        """A statement, with blocks within one another."""
        kind = self.draw.randint(0, 9 if depth < 3 else 3)
        free = [it for it in seen if it not in self.counters]
        if kind < 2 and free:
            name = self.draw.choice(free)
            return "%s = (%s) %% 50" % (name, self.value(seen))
        if kind < 4:
            return self.printed(seen)
        if kind < 6:
            return self.block(seen, taken, depth + 1)
        if kind == 6:
            one, other = self.block(seen, taken, depth + 1), self.block(seen, taken, depth + 1)
            return "if :: %s > 4 -> %s :: else -> %s fi" % (seen[0] if seen else "3", one, other)
        if kind == 7:
            return "atomic " + self.block(seen, taken, depth + 1)
        if kind == 8 and self.inlines:
            at = self.draw.randrange(len(self.inlines))
            parameters, names = self.inlines[at]
            if not set(names) & set(taken):
                return "f%d(%s)" % (at, ", ".join(self.value([]) for _ in range(parameters)))
        counter = self.name(taken)
        if counter is None:
            return "skip"
        before = self.counters
        self.counters = before | {counter}
        body = self.block(seen + [counter], taken + [counter], depth + 1)
        self.counters = before
        return "{ int %s; %s = 0; do :: %s < 2 -> %s; %s++ :: else -> break od }" % (counter, counter, counter, body, counter)

    def block(self, seen, taken, depth):
        """A block with declarations of its own."""
        return "{ " + "; ".join(self.body(list(seen), list(taken), depth)) + " }"

    def body(self, seen, taken, depth):
        """Declarations and statements."""
        out = []
        for _ in range(self.draw.randint(1, 4)):
            name = self.name(taken)
            if name is not None and self.draw.random() < 0.6:
                out += self.declared(name, seen)
                seen.append(name)
                taken.append(name)
            out.append(self.statement(seen, taken, depth))
        return out + [self.printed(seen)]

    def inline(self):
        """An inline, and what it declares at most."""
        parameters = self.draw.randint(0, 2)
        own = ["p%d" % it for it in range(parameters)]
        body = "; ".join(self.body([], [], 2)).replace("= 7", "= " + (own[0] if own else "7"))
        names = [it for it in "ijkmnt"]
        text = "inline f%d(%s) { %s }" % (len(self.inlines), ", ".join(own), body)
        self.inlines.append((parameters, names))
        return text

    def text(self):
        """The whole model."""
        units = [self.inline() for _ in range(self.draw.randint(0, 3))]
        # what calls them declares nothing of its own there
        body = "; ".join(self.body([], [], 0))
        calls = "; ".join("f%d(%s)" % (it, ", ".join(str(self.draw.randint(0, 9)) for _ in range(self.inlines[it][0]))) for it in range(len(self.inlines)) for _ in range(2))
        units.append("init { { %s }%s }" % (body, "; " + calls if calls else ""))
        return ("\n".join(units) + "\n").encode()


def block_text(draw, with_values):
    """A model by chance."""
    return Blocks(draw, with_values).text()
