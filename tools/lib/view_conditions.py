"""Random conditions of a session, each as its text and as what a second reading makes of a state, which is the fold of lines of JSON."""


class NotSo(Exception):
    """A fault of a condition, which counts as not so."""


class Drawn:
    """A condition: its text, and what it is worth in a state."""

    def __init__(self, text, worth):
        self.text, self.worth = text, worth


def holds(condition, state):
    """Whether a condition holds in a state: a fault counts as not so."""
    try:
        return bool(condition.worth(state))
    except NotSo:
        return False


def local_of(name, number, path):
    """A variable of a process, while that is one of this proctype."""

    def worth(state):
        process = state.processes.get(number)
        if process is None or process["name"] != name:
            raise NotSo
        return process["locals"][path]

    return worth


def is_at(name, number, line):
    """Whether a process of this proctype stands at a line."""
    return lambda state: number in state.processes and state.processes[number]["name"] == name and state.processes[number]["line"] == line


def length_of(path):
    """How many messages the channel has that a global names."""

    def worth(state):
        value = state.globals[path]
        if not isinstance(value, dict):
            raise NotSo
        return len(state.channels[value["chan"]]["messages"])

    return worth


COMPARED = {"==": lambda a, b: a == b, "!=": lambda a, b: a != b, "<": lambda a, b: a < b, "<=": lambda a, b: a <= b, ">": lambda a, b: a > b, ">=": lambda a, b: a >= b}


def compared(chance, text, worth):
    """A comparison of a number that a state has with a small one."""
    sign, number = chance.choice(sorted(COMPARED)), chance.choice([0, 0, 1, 1, 2, 3, 5])
    return Drawn("%s %s %d" % (text, sign, number), lambda state: COMPARED[sign](worth(state), number))


class Names:
    """What may be named in conditions over a run, by its states."""

    def __init__(self, states):
        last = states[-1]
        number = lambda value: isinstance(value, int)
        self.globals = [path for path, value in last.globals.items() if all(number(state.globals[path]) for state in states)]
        self.channels = [path for path, value in last.globals.items() if isinstance(value, dict)]
        seen = {(n, p["name"]): p["locals"] for state in states for n, p in state.processes.items()}
        self.processes = sorted(seen)
        self.locals = sorted((n, name, path) for (n, name), cells in seen.items() for path in cells
                             if all(number(s.processes[n]["locals"][path]) for s in states if n in s.processes and s.processes[n]["name"] == name))
        self.lines = sorted({p["line"] for state in states for p in state.processes.values()})
        self.stood = {name: sorted({p["line"] for state in states for p in state.processes.values() if p["name"] == name}) for _, name in self.processes}

    def atom(self, chance):
        """A condition without `&&`, `||` and `!`."""
        kinds = ["line", "at", "any", "count"] + ["global"] * 2 * bool(self.globals) + ["local"] * 3 * bool(self.locals) + ["length", "fill"] * bool(self.channels)
        kind = chance.choice(kinds)
        if kind == "global":
            path = chance.choice(self.globals)
            return compared(chance, path, lambda state: state.globals[path])
        if kind == "local":
            number, name, path = chance.choice(self.locals)
            return compared(chance, "%s[%d].%s" % (name, number, path), local_of(name, number, path))
        if kind == "length":
            path = chance.choice(self.channels)
            return compared(chance, "len(%s)" % path, length_of(path))
        if kind == "fill":
            path = chance.choice(self.channels)
            return Drawn("nempty(%s)" % path, lambda state: length_of(path)(state) > 0)
        if kind == "count":
            return compared(chance, "_nr_pr", lambda state: len(state.processes))
        line = chance.choice(self.lines)
        if kind == "line":
            return Drawn("line %d" % line, lambda state: any(p["line"] == line for p in state.processes.values()))
        number, name = chance.choice(self.processes)
        line = chance.choice(self.stood[name])
        if kind == "any":
            return Drawn("%s at line %d" % (name, line), lambda state: any(p["line"] == line and p["name"] == name for p in state.processes.values()))
        return Drawn("%s[%d] at line %d" % (name, number, line), is_at(name, number, line))

    def condition(self, chance, depth=2):
        """A condition, in brackets."""
        what = chance.random()
        if depth == 0 or what < 0.45:
            one = self.atom(chance)
            return Drawn("(%s)" % one.text, one.worth)
        one, other = self.condition(chance, depth - 1), self.condition(chance, depth - 1)
        if what < 0.7:
            return Drawn("(%s && %s)" % (one.text, other.text), lambda state: one.worth(state) and other.worth(state))
        if what < 0.9:
            return Drawn("(%s || %s)" % (one.text, other.text), lambda state: one.worth(state) or other.worth(state))
        return Drawn("(!%s)" % one.text, lambda state: not one.worth(state))
