"""The lines of JSON of a run, by a second implementation of the language: a reading of docs/LANGUAGE.md, docs/FORMATS.md and docs/VIEW.md that uses nothing
of the programs. It knows what the models of examples/view have and a little more, and ends at anything else (`Unknown`).

    python3 tools/lib/lines_again.py MODEL CHOICES..    prints the lines of a run with these answers to its questions, up to its end or to the end of the answers

A line has the keys up to `open`; `view_told.py` has the further keys of docs/VIEW.md. `again` gives the lines of a kept run from its model and the choices
in its own lines. tools/try-view makes each examples/view/NAME.jsonl again by it."""
import json
import re
import sys

TOKEN = re.compile(r"""(?P<skip>\s+|/\*.*?\*/|//[^\n]*)|(?P<string>"(?:[^"\\]|\\.)*")|(?P<number>\d+)|(?P<name>[A-Za-z_]\w*)
    |(?P<sign>::|->|==|!=|<=|>=|&&|\|\||\+\+|--|\?\?|!!|[-+*/%<>=!?(){}\[\],;:.])""", re.X | re.S)
TYPES = {"bit": 1, "bool": 1, "byte": 255, "mtype": 255, "chan": 255, "int": None}
LEVELS = [["||"], ["&&"], ["==", "!="], ["<", "<=", ">", ">="], ["+", "-"], ["*", "/", "%"]]
POLLS = {"len": lambda n, most: n, "full": lambda n, most: int(n == most), "nfull": lambda n, most: int(n < most),
         "empty": lambda n, most: int(n == 0), "nempty": lambda n, most: int(n > 0)}


class Unknown(Exception):
    """What this implementation does not know."""


class Token:
    def __init__(self, text, kind, line):
        self.text, self.kind, self.line = text, kind, line


def tokens_of(text):
    found, at, line = [], 0, 1
    while at < len(text):
        match = TOKEN.match(text, at)
        if not match:
            raise Unknown("line %d: %r" % (line, text[at]))
        if match.lastgroup != "skip":
            found.append(Token(match.group(), match.lastgroup, line))
        line += match.group().count("\n")
        at = match.end()
    return found


# ---- the text: statements, and where each leads

class Point:
    """Where a process may stand: its line, whether it may end there, and the statements that are offered, each with the point behind it."""

    def __init__(self, line=0, is_end=False):
        self.line, self.is_end, self.offers, self.atomic, self.is_last = line, is_end, [], None, False


class Offer:
    """A statement: its tokens as text, its line, what it does, the point behind it, and the atomic sequence that it stands in."""

    def __init__(self, kind, tokens, parts, behind, atomic):
        self.kind, self.parts, self.behind, self.atomic = kind, parts, behind, atomic
        self.text, self.line = " ".join(token.text for token in tokens), tokens[0].line


class Reader:
    """Reads a model by descent."""

    def __init__(self, text):
        self.tokens, self.at = tokens_of(text), 0
        self.mtypes, self.globals, self.proctypes, self.active = [], [], {}, []
        while self.at < len(self.tokens):
            if not self.takes(";"):
                self.unit()

    def peek(self, ahead=0):
        return self.tokens[self.at + ahead].text if self.at + ahead < len(self.tokens) else ""

    def next(self):
        self.at += 1
        return self.tokens[self.at - 1]

    def takes(self, text):
        if self.peek() == text:
            self.at += 1
            return True
        return False

    def wants(self, text):
        token = self.next()
        if token.text != text:
            raise Unknown("line %d: %s, and %s is wanted" % (token.line, token.text, text))
        return token

    def unit(self):
        if self.peek() == "mtype" and self.peek(1) == "=":
            self.at += 3
            while not self.takes("}"):
                self.mtypes.append(self.next().text)
                self.takes(",")
        elif self.peek() in TYPES:
            self.globals += self.declaration()
        else:
            count = int(self.takes("active"))
            if count and self.takes("["):
                count = int(self.next().text)
                self.wants("]")
            name = ":init:" if self.next().text == "init" else self.next().text
            parameters = []
            if name != ":init:":
                self.wants("(")
                while not self.takes(")"):
                    parameters += self.declaration()
                    self.takes(";")
            self.proctypes[name] = self.proctype(name, parameters)
            self.active += [name] * (count or int(name == ":init:"))

    def declaration(self):
        """Variables: type, name, size or None, and what each begins with: an expression, or a channel's capacity and types."""
        found, kind = [], self.next().text
        while True:
            name, size, value = self.next().text, None, None
            if self.takes("["):
                size = int(self.next().text)
                self.wants("]")
            if self.takes("="):
                value = self.channel() if self.peek() == "[" else self.expression()
            found.append((kind, name, size, value))
            if not (self.peek() == "," and self.takes(",")):
                return found

    def channel(self):
        self.wants("[")
        capacity, fields = int(self.next().text), []
        for text in ("]", "of", "{"):
            self.wants(text)
        while not self.takes("}"):
            fields.append(self.next().text)
            self.takes(",")
        return "channel", capacity, fields

    def proctype(self, name, parameters):
        self.locals = list(parameters)
        last = Point(is_end=True)
        last.is_last = True
        self.wants("{")
        first = self.sequence("}", last, None, None)
        last.line = self.tokens[self.at - 1].line
        return {"name": name, "parameters": len(parameters), "variables": self.locals, "first": first, "end": last.line}

    def sequence(self, closer, behind, out, atomic):
        """The statements up to a token that closes them; the point at which they begin. Where they end, control is at `behind`, and a `break` leads `out`."""
        starts = []
        while True:
            while self.takes(";") or self.takes("->"):
                pass
            if self.peek() in closer.split():
                break
            if self.peek() in TYPES:
                self.locals += self.declaration()
            else:
                starts.append(self.statement(out, atomic))
        if not closer.startswith("::"):
            self.next()
        point = behind
        for make in reversed(starts):
            point = make(point)
        return point

    def statement(self, out, atomic):
        """A statement, as what makes a point of the point behind it."""
        labels = []
        while self.tokens[self.at].kind == "name" and self.peek(1) == ":":
            labels.append(self.next().text)
            self.wants(":")
        is_end = any(label.startswith("end") for label in labels)
        line = self.tokens[self.at].line
        if self.peek() in ("if", "do"):
            return self.selection(line, is_end, out, atomic)
        if self.takes("atomic"):
            self.wants("{")
            inside, mark = [], object()
            while not self.takes("}"):
                if not (self.takes(";") or self.takes("->")):
                    inside.append(self.statement(out, atomic or mark))

            def block(behind):
                for make in reversed(inside):
                    behind = make(behind)
                return behind
            return block
        if self.takes("break"):
            return lambda behind: out
        kind, tokens, parts = self.simple()

        def one(behind):
            point = Point(line, is_end)
            point.atomic = atomic
            point.offers.append(Offer(kind, tokens, parts, behind, atomic))
            return point
        return one

    def selection(self, line, is_end, out, atomic):
        """An `if` or a `do`: its options are offered at one point."""
        is_loop = self.next().text == "do"
        closer = "od" if is_loop else "fi"
        point, marks = Point(line, is_end), []
        point.atomic = atomic
        hold = Point()  # stands for what is behind, until that is known
        while self.takes("::"):
            if self.peek() in ("if", "do", "break", "goto", "atomic"):
                raise Unknown("line %d: an option that begins so" % line)
            marks.append(self.sequence(":: " + closer, point if is_loop else hold, hold if is_loop else out, atomic))
        self.wants(closer)

        def whole(behind):
            point.offers = [offer for mark in marks for offer in mark.offers]
            settle(point, hold, behind, set())
            return point
        return whole

    def simple(self):
        """A statement that gives no structure: what it is, its tokens, and its parts."""
        start = self.at
        if self.takes("else"):
            return "else", self.tokens[start:self.at], None
        if self.takes("run"):
            parts = self.next().text, self.arguments()
            return "run", self.tokens[start:self.at], parts
        if self.takes("assert"):
            value = self.expression()
            return "assert", self.tokens[start:self.at], value
        if self.takes("printf"):
            self.wants("(")
            words, values = self.next().text, []
            while self.takes(","):
                values.append(self.expression())
            self.wants(")")
            return "printf", self.tokens[start:self.at], (words, values)
        if self.tokens[self.at].kind == "name" and self.peek() not in ("timeout", "true", "false", "skip", *POLLS):
            target = self.reference()
            if self.peek() in ("=", "++", "--"):
                sign = self.next().text
                value = self.expression() if sign == "=" else ("binary", sign[0], target, ("number", 1))
                return "store", self.tokens[start:self.at], (target, value)
            if self.peek() in ("!", "?"):
                kind = "send" if self.next().text == "!" else "receive"
                parts = target, self.message()
                return kind, self.tokens[start:self.at], parts
            self.at = start
        value = self.expression()
        return "condition", self.tokens[start:self.at], value

    def message(self):
        fields = [self.expression()]
        if self.peek() == "(":
            return fields + self.arguments()
        while self.takes(","):
            fields.append(self.expression())
        return fields

    def arguments(self):
        found = []
        self.wants("(")
        while not self.takes(")"):
            found.append(self.expression())
            self.takes(",")
        return found

    # ---- expressions

    def expression(self, level=0):
        if level == len(LEVELS):
            return self.operand()
        left = self.expression(level + 1)
        while self.peek() in LEVELS[level]:
            left = ("binary", self.next().text, left, self.expression(level + 1))
        return left

    def operand(self):
        if self.takes("("):
            inner = self.expression()
            self.wants(")")
            return inner
        if self.takes("!"):
            return "not", self.operand()
        if self.tokens[self.at].kind == "number":
            return "number", int(self.next().text)
        if self.peek() in ("true", "false", "skip"):
            return "number", int(self.next().text != "false")
        if self.takes("timeout"):
            return ("timeout",)
        if self.peek() in POLLS:
            name = self.next().text
            self.wants("(")
            target = self.reference()
            self.wants(")")
            return "poll", name, target
        return self.reference()

    def reference(self):
        token = self.next()
        if token.kind != "name":
            raise Unknown("line %d: %s" % (token.line, token.text))
        if token.text in self.mtypes:
            return "number", self.mtype(token.text)
        index = None
        if self.takes("["):
            index = self.expression()
            self.wants("]")
        return "name", token.text, index

    def mtype(self, name):
        """The names of an mtype list are numbered from its last one."""
        return len(self.mtypes) - self.mtypes.index(name)


def settle(point, hold, behind, seen):
    """Puts the point that is behind a selection where another one stood for it."""
    if id(point) in seen or point is behind:
        return
    seen.add(id(point))
    for offer in point.offers:
        if offer.behind is hold:
            offer.behind = behind
        else:
            settle(offer.behind, hold, behind, seen)


# ---- the run

class Process:
    def __init__(self, number, proctype):
        self.number, self.proctype, self.point, self.cells = number, proctype, proctype["first"], {}


class Channel:
    def __init__(self, number, name, capacity, fields):
        self.number, self.name, self.capacity, self.fields, self.messages = number, name, capacity, fields, []


class Run:
    """A model from its first state on."""

    def __init__(self, text, name):
        self.model, self.name = Reader(text), name
        self.types, self.globals, self.channels, self.processes, self.holder, self.timeout, self.printed = {}, {}, [], [], None, 0, ""
        for variable in self.model.globals:
            self.begin(variable, None, self.globals)
        for name in self.model.active:
            self.create(name, [])

    def begin(self, variable, process, cells, given=None):
        kind, name, size, value = variable
        owner = "" if process is None else "%s[%d]." % (process.proctype["name"], process.number)
        for path in [name] if size is None else ["%s[%d]" % (name, at) for at in range(size)]:
            self.types[owner + path] = kind
            if isinstance(value, tuple) and value[0] == "channel":
                self.channels.append(Channel(len(self.channels) + 1, owner + path, value[1], value[2]))
                cells[path] = len(self.channels)
            else:
                cells[path] = self.clipped(kind, self.value(value, process) if value else given or 0)

    def create(self, name, arguments):
        process = Process(len(self.processes), self.model.proctypes[name])
        for at, variable in enumerate(process.proctype["variables"]):
            self.begin(variable, process, process.cells, arguments[at] if at < len(arguments) else None)
        self.processes.append(process)

    @staticmethod
    def clipped(kind, number):
        return number if TYPES[kind] is None else number & TYPES[kind]

    def cell(self, reference, process):
        _, name, index = reference
        path = name if index is None else "%s[%d]" % (name, self.value(index, process))
        cells = process.cells if process and path in process.cells else self.globals
        if path not in cells:
            raise Unknown("no variable %s" % path)
        return cells, path

    def kind_of(self, cells, path, process):
        return self.types[path if cells is self.globals else "%s[%d].%s" % (process.proctype["name"], process.number, path)]

    def value(self, e, process):
        if e[0] == "number":
            return e[1]
        if e[0] == "timeout":
            return self.timeout
        if e[0] == "not":
            return int(not self.value(e[1], process))
        if e[0] == "poll":
            channel = self.channel(e[2], process)
            return POLLS[e[1]](len(channel.messages), channel.capacity)
        if e[0] == "name":
            if e[1] == "_pid":
                return process.number
            cells, path = self.cell(e, process)
            return cells[path]
        _, sign, left, right = e
        a = self.value(left, process)
        if sign in ("&&", "||"):
            return int(bool(a) and bool(self.value(right, process))) if sign == "&&" else int(bool(a) or bool(self.value(right, process)))
        b = self.value(right, process)
        if sign in ("/", "%"):
            whole = abs(a) // abs(b) * (1 if (a < 0) == (b < 0) else -1)
            return whole if sign == "/" else a - whole * b
        return {"+": a + b, "-": a - b, "*": a * b, "==": int(a == b), "!=": int(a != b), "<": int(a < b), "<=": int(a <= b), ">": int(a > b), ">=": int(a >= b)}[sign]

    def channel(self, reference, process):
        return self.channels[self.value(reference, process) - 1]

    # ---- what can be taken

    def message(self, channel, fields, process):
        return [self.clipped(kind, self.value(field, process)) for kind, field in zip(channel.fields, fields)]

    def matches(self, message, fields, process):
        """Whether a receive takes a message: a variable takes any number, a constant its own."""
        return all(field[0] == "name" or self.value(field, process) == number for number, field in zip(message, fields))

    def can(self, offer, process):
        """Whether a statement can be taken by itself."""
        if offer.kind == "condition":
            return self.value(offer.parts, process) != 0
        if offer.kind in ("send", "receive"):
            channel = self.channel(offer.parts[0], process)
            if offer.kind == "send":
                return 0 < channel.capacity and len(channel.messages) < channel.capacity
            return bool(channel.messages) and self.matches(channel.messages[0], offer.parts[1], process)
        return offer.kind != "else"

    def receivers(self, offer, process):
        """Who receives what a rendezvous sends, each by a statement."""
        channel = self.channel(offer.parts[0], process)
        if offer.kind != "send" or channel.capacity:
            return
        message = self.message(channel, offer.parts[1], process)
        for other in self.processes:
            for answer in other.point.offers if other is not process else []:
                if answer.kind == "receive" and self.channel(answer.parts[0], other) is channel and self.matches(message, answer.parts[1], other):
                    yield other, answer

    def moves_of(self, process):
        if process.point.is_last:
            return [(process, None, None, None)] if process is self.processes[-1] else []
        found = []
        for offer in process.point.offers:
            if self.can(offer, process):
                found.append((process, offer, None, None))
            elif offer.kind == "send":
                found += [(process, offer, other, answer) for other, answer in self.receivers(offer, process)]
        # a receive from a rendezvous channel can be taken with a sender alone, and an `else` where nothing else can
        return found or [(process, offer, None, None) for offer in process.point.offers if offer.kind == "else"]

    def search(self):
        """The moves of a state: those of the holder of exclusive control, else all, else all under `timeout`."""
        if self.holder is not None:
            found = self.moves_of(self.holder)
            if found:
                return found
        for self.timeout in (0, 1):
            found = [move for process in self.processes for move in self.moves_of(process)]
            if found:
                return found
        return []

    def moves(self):
        self.timeout = 0
        self.found = self.search()
        return self.found

    # ---- a step

    def take(self, move):
        """Takes a move; what it prints stands in `printed`."""
        process, offer, other, answer = move
        self.printed = ""
        if offer is None:
            self.processes.pop()
            own = "%s[%d]." % (process.proctype["name"], process.number)
            self.channels = [channel for channel in self.channels if not channel.name.startswith(own)]
            self.holder = None if self.holder is process else self.holder
            return
        if offer.kind == "store":
            self.store(offer.parts[0], self.value(offer.parts[1], process), process)
        elif offer.kind == "run":
            self.create(offer.parts[0], [self.value(argument, process) for argument in offer.parts[1]])
        elif offer.kind == "assert" and not self.value(offer.parts, process):
            raise Unknown("a fault: %s" % offer.text)
        elif offer.kind == "printf":
            self.printed = self.shown(*offer.parts, process)
        elif offer.kind == "send":
            channel = self.channel(offer.parts[0], process)
            message = self.message(channel, offer.parts[1], process)
            if other is None:
                channel.messages.append(message)
            else:
                self.receive(message, answer.parts[1], other)
        elif offer.kind == "receive":
            self.receive(self.channel(offer.parts[0], process).messages.pop(0), offer.parts[1], process)
        self.go(process, offer)
        if other is not None:
            self.go(other, answer)

    def go(self, process, offer):
        process.point = offer.behind
        self.holder = process if offer.atomic is not None and process.point.atomic is offer.atomic else None

    def store(self, reference, number, process):
        if reference[1] != "_":
            cells, path = self.cell(reference, process)
            cells[path] = self.clipped(self.kind_of(cells, path, process), number)

    def receive(self, message, fields, process):
        for number, field in zip(message, fields):
            if field[0] == "name":
                self.store(field, number, process)

    def shown(self, words, values, process):
        numbers = iter([self.value(value, process) for value in values])
        text = re.sub(r"%d", lambda _: str(next(numbers)), words[1:-1])
        return text.replace("\\n", "\n")

    # ---- words

    def named(self, kind, number):
        """A value as it stands in a line: an mtype by its name, a channel as an object, else a number."""
        if kind == "mtype" and 0 < number <= len(self.model.mtypes):
            return self.model.mtypes[-number]
        return {"chan": number} if kind == "chan" and number else number

    def told(self, values):
        return "(%s)" % ", ".join(str(value["chan"] if isinstance(value, dict) else value) for value in values)

    def pattern(self, channel, fields, process):
        return self.told("_" if field[0] == "name" else self.named(kind, self.value(field, process)) for kind, field in zip(channel.fields, fields))

    def reads(self, e, process):
        """What an expression reads, in the order of its text."""
        if e[0] == "timeout":
            return ["timeout = %d" % self.timeout]
        if e[0] == "poll":
            return ["len(%s) = %d" % (e[2][1], len(self.channel(e[2], process).messages))]
        if e[0] == "name":
            cells, path = self.cell(e, process)
            return ["%s = %s" % (path, self.named(self.kind_of(cells, path, process), cells[path]))]
        return [word for part in e[1:] if isinstance(part, tuple) for word in self.reads(part, process)]

    def reason(self, offer, process):
        """Why a statement cannot be taken."""
        if offer.kind == "condition":
            return "false", "false: %s" % ", ".join(dict.fromkeys(self.reads(offer.parts, process)))
        channel = self.channel(offer.parts[0], process)
        if offer.kind == "send":
            sent = self.told(self.named(kind, number) for kind, number in zip(channel.fields, self.message(channel, offer.parts[1], process)))
            return ("full", "%s is full" % channel.name) if channel.capacity else ("no receiver", "no process receives %s from %s" % (sent, channel.name))
        asked = self.pattern(channel, offer.parts[1], process)
        if not channel.capacity:
            return "no sender", "no process sends %s to %s" % (asked, channel.name)
        if not channel.messages:
            return "empty", "%s is empty" % channel.name
        oldest = self.told(self.named(kind, number) for kind, number in zip(channel.fields, channel.messages[0]))
        return "no match", "the oldest message of %s is %s, not %s" % (channel.name, oldest, asked)

    def waits(self, process):
        line = process.point.line
        if self.holder is not None and self.holder is not process and self.moves_of(self.holder):
            return [self.wait(line, None, "held", "proc %d (%s) has exclusive control" % (self.holder.number, self.holder.proctype["name"]))]
        if process.point.is_last:
            youngest = self.processes[-1]
            return [self.wait(line, None, "younger", "it can end when proc %d (%s) has ended" % (youngest.number, youngest.proctype["name"]))]
        return [self.wait(offer.line, offer.text, *self.reason(offer, process)) for offer in process.point.offers if offer.kind != "else"]

    @staticmethod
    def wait(line, text, because, words):
        return {"line": line, "text": text, "because": because, "words": words}

    # ---- objects and lines

    def channel_object(self, channel):
        messages = [[self.named(kind, number) for kind, number in zip(channel.fields, message)] for message in channel.messages]
        return {"chan": channel.number, "name": channel.name, "capacity": channel.capacity, "fields": channel.fields, "messages": messages}

    def process_object(self, process):
        taken = sum(process in (move[0], move[2]) for move in self.found)
        return {"proc": process.number, "name": process.proctype["name"], "line": process.point.line, "moves": taken, "waits": [] if taken else self.waits(process)}

    def local_values(self, process):
        return {path: self.named(self.kind_of(process.cells, path, process), number) for path, number in process.cells.items()}

    def global_values(self):
        return {path: self.named(self.types[path], number) for path, number in self.globals.items()}

    def move_words(self, move):
        process, offer, other, answer = move
        if offer is None:
            return self.place(process, process.proctype["end"], "-end-")
        first = self.place(process, offer.line, offer.text)
        return first if other is None else "%s -> %s" % (first, self.place(other, answer.line, answer.text))

    @staticmethod
    def place(process, line, text):
        return "proc %d (%s) line %d [%s]" % (process.number, process.proctype["name"], line, text)

    def start_line(self):
        proctypes = [{"name": name, "end": proctype["end"]} for name, proctype in self.model.proctypes.items()]
        self.moves()
        return {"event": "start", "format": 1, "model": self.name, "lossy": False, "proctypes": proctypes, "globals": self.global_values(),
                "channels": [self.channel_object(channel) for channel in self.channels],
                "processes": [{**self.process_object(process), "locals": self.local_values(process)} for process in self.processes]}

    def deed(self, move):
        """What a step does, by the state before it: the keys up to `to`."""
        process, offer, other, answer = move
        line = {"proc": process.number, "name": process.proctype["name"], "line": offer.line if offer else process.proctype["end"], "text": offer.text if offer else "-end-"}
        if offer is None:
            return {**line, "does": "end"}
        if offer.kind not in ("send", "receive"):
            return {**line, "does": "statement"}
        channel = self.channel(offer.parts[0], process)
        message = self.message(channel, offer.parts[1], process) if offer.kind == "send" else channel.messages[0]
        values = [self.named(kind, number) for kind, number in zip(channel.fields, message)]
        line = {**line, "does": "pass" if other else offer.kind, "chan": channel.number, "message": values}
        return {**line, "to": {"proc": other.number, "name": other.proctype["name"], "line": answer.line, "text": answer.text}} if other else line

    def lines(self, choices, limit):
        """The lines of a run by choices, each of several moves, of at most so many steps."""
        yield self.start_line()
        choices, steps, moves = iter(choices), 0, self.found
        shown_channels = {channel.number: self.channel_object(channel) for channel in self.channels}
        shown = {process.number: self.process_object(process) for process in self.processes}
        cause = "step limit"
        while moves and steps < limit:
            choice = 1 if len(moves) == 1 else next(choices, None)
            if choice is None:
                cause = "choices ended"
                break
            before = {process.number: self.local_values(process) for process in self.processes}
            old_globals, steps = self.global_values(), steps + 1
            line = {"event": "step", "step": steps, "choice": choice, "of": len(moves)}
            if len(moves) > 1:
                line["moves"] = [self.move_words(move) for move in moves]
            line.update(self.deed(moves[choice - 1]))
            self.take(moves[choice - 1])
            moves = self.moves()
            if self.printed:
                line["printed"] = self.printed
            changed = {path: value for path, value in self.global_values().items() if old_globals[path] != value}
            if changed:
                line["globals"] = changed
            objects = {channel.number: self.channel_object(channel) for channel in self.channels}
            new = [thing for number, thing in objects.items() if shown_channels.get(number) != thing]
            if new:
                line["channels"] = new
            shown_channels, told = objects, []
            for process in self.processes:
                thing, values = self.process_object(process), self.local_values(process)
                fresh = {path: value for path, value in values.items() if before.get(process.number, {}).get(path) != value} if process.number in before else values
                if process.number not in before or fresh or shown.get(process.number) != thing:
                    told.append({**thing, "locals": fresh})
                shown[process.number] = thing
            if told:
                line["processes"] = told
            line.update({"alive": len(self.processes), "open": len(self.channels)})
            yield line
        yield self.end_line(cause, steps, moves)

    def end_line(self, cause, steps, moves):
        if moves:
            return {"event": "end", "steps": steps, "end": cause, "moves": [self.move_words(move) for move in moves]}
        stuck = [process for process in self.processes if not process.point.is_end]
        at = [{"proc": process.number, "name": process.proctype["name"], "line": process.point.line} for process in stuck]
        return {"event": "end", "steps": steps, "end": "invalid" if at else "valid", "at": at}


def written(lines):
    return "".join(json.dumps(line, separators=(",", ":"), ensure_ascii=False) + "\n" for line in lines)


def again(model, name, kept):
    """The lines of a kept run, from the model of this name and the choices in its lines."""
    kept = [json.loads(line) for line in kept.splitlines()]
    choices = [line["choice"] for line in kept if line.get("of", 1) > 1]
    return written(Run(model, name).lines(choices, kept[-1]["steps"]))


if __name__ == "__main__":
    with open(sys.argv[1], encoding="utf-8") as file:
        sys.stdout.write(written(Run(file.read(), sys.argv[1].rsplit("/", 1)[-1]).lines([int(word) for word in sys.argv[2:]], 1_000_000)))
