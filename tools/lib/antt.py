"""Reads files of definitions (*.antt): what each defines, with its comment and its lines, and what each name in it means. If a line is no definition, a
sign is none, or nothing brings a name in, the reading ends with the file and the line (`Unread`)."""
import re

IMPORT = re.compile(r"^use ([A-Za-z0-9_.-]+?)(?:\.\{([^{}]*)\}| as ([A-Za-z_-]+))?$")
WORDS = r"(?:(?:abbrev|unfoldable|pub) )*"
CONTAINER = re.compile(r"^( *)%s(mutual|module _ .*where)$" % WORDS)
TYPE = re.compile(r"^( *)%s(data|record) ([^\s:(]+)" % WORDS)
HEAD = re.compile(r"^( *)%s([^\s:(]+) :(?= |$)" % WORDS)
FIXITY = re.compile(r"^( *)infix[lr]? \d+ (\S+)$")
CASE = re.compile(r"^( *)%s([^\s:(]+(?: [^\s:(]+)*) :(?= |$)" % WORDS)
SECTION = re.compile(r"^ *-- ---- (.*)$")
TOKEN = re.compile(r"""(?P<space>\s+)|(?P<comment>--(?=\s|$)[^\n]*)|(?P<string>"(?:[^"\\\n]|\\.)*")|(?P<number>0x[0-9a-f]+|\d+)|(?P<name>[A-Za-z_][A-Za-z0-9_'ℤ-]*|[ℕℤ⊥⊤])
    |(?P<open>[(\[{])|(?P<close>[)\]}])|(?P<dot>\.)|(?P<sign>λ|[^\s\w()\[\]{}.,;"]+ℤ?|[,;])""", re.X)
KEYWORDS = {"abbrev", "unfoldable", "pub", "data", "record", "where", "mutual", "module", "let", "in", "if", "then", "else", "elim", "as", "Type", "infixl",
            "infixr", "unfolding", "_", "refl", "opaque"}
MARKS = {":", "=", "→", "λ", "|", "↦", ",", ";"}
CLOSERS = ")]}"
BUILT_IN = {"×", "⊎", "⊥", "Unit", "tt"}
OPERATOR = re.compile(r"^◌(.*)◌$")


class Unread(Exception):
    """What cannot be read, with its file and line."""


class Definition:
    """A definition: its names (the first is its own, the others are its cases), its kind, its comment, and its lines with their numbers."""

    def __init__(self, file, name, kind, number, context, section):
        self.file, self.name, self.kind, self.number, self.context, self.section = file, name, kind, number, context, section
        self.comment, self.lines, self.cases = [], [], {}

    @property
    def key(self):
        return self.file.path, self.name


class Source:
    """A file of definitions."""

    def __init__(self, path, shown):
        self.path, self.shown = path, shown
        self.text = path.read_text(encoding="utf8")
        self.lines = self.text.split("\n")
        self.names, self.modules = {}, {}  # what imports bring in: a name's module and its name there; an alias's module
        self.definitions, self.by_name = [], {}
        self.first_comment = []
        self.read()

    def fault(self, number, words):
        return Unread("%s:%d: %s" % (self.shown, number, words))

    def read_import(self, number, line):
        found = IMPORT.match(line)
        if not found:
            raise self.fault(number, "an import that is not read: " + line)
        module, names, alias = found.groups()
        if alias:
            self.modules[alias] = module
        elif names is None:
            self.modules[module.rpartition(".")[2]] = module
        for name in filter(None, (one.strip() for one in (names or "").split(","))):
            old, _, new = name.partition(" as ")
            self.names[new.strip() or old] = (module, old.strip())

    def read(self):
        comment, section, containers, current, free = [], "", [], None, []
        fixity = None
        for number, line in enumerate(self.lines, 1):
            indent = len(line) - len(line.lstrip(" "))
            if not line.strip():
                if current is None and comment:
                    free, comment = comment, []
                if current is not None and current.lines:
                    current.lines.append((number, line))
                continue
            while containers and indent <= containers[-1][0]:
                containers.pop()
            inside = current is not None and (indent > current.indent or indent == current.indent and line.lstrip()[0] in CLOSERS)
            if line.lstrip().startswith("--"):
                if inside or current and current.kind == "function" and self.goes_on(current, number):
                    current.lines.append((number, line))
                    continue
                current = None
                if SECTION.match(line):
                    section, comment = SECTION.match(line).group(1), []
                elif number <= len(self.first_comment) + 1:
                    self.first_comment.append(line[2:].strip())
                else:
                    comment.append((number, line))
                continue
            if inside:
                current.lines.append((number, line))
                continue
            if line.startswith("use "):
                self.read_import(number, line)
                continue
            if re.match(r"^pub mod \w+$", line):
                continue
            if CONTAINER.match(line):
                current = None
                containers.append((indent, number, line, comment))
                comment = []
                continue
            if FIXITY.match(line):
                fixity = (number, line)
                continue
            kind = TYPE.match(line)
            head = kind or HEAD.match(line)
            if head and not (current and self.is_clause(current, line)):
                name = head.group(3) if kind else head.group(2)
                current = Definition(self, name, kind.group(2) if kind else "function", number, [it[1:] for it in containers], section)
                current.indent = indent
                if containers and indent <= containers[-1][0]:
                    raise self.fault(number, "a definition outside its block")
                current.comment, comment = [it[1].strip()[2:].strip() for it in comment], []
                current.lines = [fixity] * (fixity is not None) + [(number, line)]
                fixity = None
                if name in self.by_name:
                    raise self.fault(number, "`%s` is defined twice" % name)
                self.definitions.append(current)
                self.by_name[name] = current
            elif current and current.kind == "function" and self.is_clause(current, line):
                current.lines.append((number, line))
            else:
                raise self.fault(number, "no definition that is known: " + line.strip()[:80])
        for one in self.definitions:
            while not one.lines[-1][1].strip():
                one.lines.pop()
            if one.kind == "data":
                for number, line in one.lines[1:]:
                    found = CASE.match(line)
                    if found and len(found.group(1)) == one.indent + 2:
                        for name in found.group(2).split():
                            one.cases[name] = number
                            self.by_name.setdefault(name, one)

    def goes_on(self, current, number):
        """Whether a clause of a function stands behind the comment in this line."""
        while self.lines[number - 1].lstrip().startswith("--"):
            number += 1
        return bool(self.lines[number - 1].strip()) and self.is_clause(current, self.lines[number - 1])

    @staticmethod
    def is_clause(current, line):
        operator = OPERATOR.match(current.name)
        words = line.split()
        if operator:
            return operator.group(1) in words
        return words[0] == current.name or words[0] == "unfolding"


def tokens(source, lines):
    """The tokens of numbered lines: kind, text, number. A name has the fields behind it."""
    for number, line in lines:
        at = 0
        while at < len(line):
            found = TOKEN.match(line, at)
            if not found:
                raise source.fault(number, "a sign that is not known: " + line[at:at + 20])
            yield [found.lastgroup, found.group(), number]
            at = found.end()
        yield ["space", "\n", number]


class Scope:
    """Which local names stand for something, each until its group ends."""

    def __init__(self, names):
        self.bound = [(name, -1) for name in names]

    def has(self, name):
        return any(name == it for it, _ in self.bound)

    def add(self, name, depth):
        self.bound.append((name, depth))

    def leave(self, depth):
        self.bound = [it for it in self.bound if it[1] <= depth]


def binders(source, lines):
    """The names that the parentheses of a head bind: of `module _ (b : Seq) where`, or of a type with parameters."""
    found, stream = [], [it for it in tokens(source, lines) if it[0] not in ("space", "comment")]
    for at, (kind, text, _) in enumerate(stream):
        if kind == "open":
            run = at + 1
            while run < len(stream) and stream[run][0] == "name":
                run += 1
            if run > at + 1 and run < len(stream) and stream[run][1] == ":":
                found += [it[1] for it in stream[at + 1:run]]
    return found


class Reader:
    """Reads a definition word by word. `resolve(source, name, fields)` answers what a name at the head of `name.fields` stands for that is not
    local, or None; `is_case(what)` whether that is a constructor."""

    def __init__(self, resolve, is_case):
        self.resolve, self.is_case = resolve, is_case

    def pieces(self, one):
        """The text of a definition in pieces: what each names (None, 'local', 'field', 'own', or what `resolve` answers), its text, the line."""
        source, outer = one.file, []
        for number, line, _ in one.context:
            outer += binders(source, [(number, line)])
        if one.kind == "function":
            return self.of_function(one, outer)
        head, rest = self.head_and_rest(one)
        names = outer + binders(source, head)
        found = self.walk(one, head, Scope(names), own=True)
        for part in rest:
            found += self.walk(one, part, Scope(names), field=True)
            if one.kind == "record":
                names += CASE.match(part[0][1]).groups()[1:] if CASE.match(part[0][1]) else ()
        return found

    @staticmethod
    def head_and_rest(one):
        """The lines of a type up to `where`, and those of each field or case."""
        head, rest, indent = [], [], one.indent + 2
        inside = False
        for number, line in one.lines:
            if not inside:
                head.append((number, line))
                inside = line.rstrip().endswith(" where") or line.strip() == "where"
            elif not rest or len(line) - len(line.lstrip(" ")) == indent:
                rest.append([(number, line)])
            else:
                rest[-1].append((number, line))
        return head, rest

    def of_function(self, one, outer):
        parts = []
        for number, line in one.lines:
            indent = len(line) - len(line.lstrip(" "))
            if not parts or (indent == one.indent and line.strip() and line.lstrip()[0] not in CLOSERS):
                parts.append([(number, line)])
            else:
                parts[-1].append((number, line))
        found = []
        for at, part in enumerate(parts):
            words = part[0][1].split()
            if words[0] in ("infix", "infixl", "infixr", "unfolding") or words[0].startswith("--") or at == self.head_at(parts):
                found += self.walk(one, part, Scope(outer), own=True)
            else:
                found += self.walk(one, part, Scope(outer), clause=True)
        return found

    @staticmethod
    def head_at(parts):
        return next(at for at, part in enumerate(parts) if HEAD.match(part[0][1]))

    def walk(self, one, lines, scope, own=False, field=False, clause=False):
        source = one.file
        stream = list(tokens(source, lines))
        real = [at for at, it in enumerate(stream) if it[0] not in ("space", "comment")]
        place = {at: index for index, at in enumerate(real)}
        operator = OPERATOR.match(one.name)
        out, stack, lets, pending, first = [], [], [], set(), True
        in_pattern = clause
        pattern_at = -1
        lambda_on = False
        case_named = False

        def after(at, step=1):
            index = place[at] + step
            return stream[real[index]] if 0 <= index < len(real) else ["end", "", 0]

        for at, (kind, text, number) in enumerate(stream):
            if kind in ("space", "comment", "string", "number"):
                out.append(("comment" if kind == "comment" else None, text, number))
                continue
            depth = len(stack)
            if kind == "open":
                literal = text == "{" and depth in pending
                if literal:
                    pending.discard(depth)
                stack.append("record" if literal else text)
                out.append((None, text, number))
                index = place[at] + 1
                run = index
                while run < len(real) and stream[real[run]][0] == "name":
                    run += 1
                if not literal and not in_pattern and run > index and run < len(real) and stream[real[run]][1] == ":":
                    for it in real[index:run]:
                        scope.add(stream[it][1], depth)
                continue
            if kind == "close":
                if not stack:
                    raise source.fault(number, "a bracket that nothing opens")
                stack.pop()
                pending = {it for it in pending if it < len(stack) + 1}
                scope.leave(len(stack))
                lets = [it for it in lets if it[1] <= len(stack)]
                out.append((None, text, number))
                continue
            if kind == "dot":
                before, behind = (stream[at - 1] if at else ["space", "", 0]), (stream[at + 1] if at + 1 < len(stream) else ["space", "", 0])
                if behind[0] == "space":
                    lambda_on = False
                elif before[0] == "space":
                    raise source.fault(number, "a dot that is not known")
                out.append((None, text, number))
                continue
            if kind == "sign":
                if text == "λ":
                    lambda_on = True
                    index = place[at] + 1
                    while stream[real[index]][0] != "dot":
                        kind_, name = stream[real[index]][:2]
                        if kind_ == "name" and name != "_":
                            if stream[real[index - 1]][1] != ":":
                                scope.add(name, depth)
                        if stream[real[index]][1] == ":":
                            while stream[real[index + 1]][0] != "close":
                                index += 1
                        index += 1
                    out.append((None, text, number))
                    continue
                if text == "=" and in_pattern and depth == 0:
                    in_pattern = False
                if text == "|" and stack and stack[-1] == "[":
                    in_pattern, pattern_at = True, depth
                    scope.leave(depth - 1)
                if text == "↦":
                    in_pattern = False
                if text in MARKS:
                    out.append((None, text, number))
                    continue
                if operator and text == operator.group(1):
                    out.append(("own", text, number))
                    continue
                what = (text in BUILT_IN and ("import", "", text)) or self.resolve(source, "◌%s◌" % text, None) or self.resolve(source, text, None)
                if what is None:
                    raise source.fault(number, "nothing brings in the sign %s" % text)
                out.append((what, text, number))
                continue
            # a name
            before = stream[at - 1] if at else ["space", "", 0]
            if before[0] == "dot" and at > 1 and stream[at - 2][0] != "space":
                out.append(("field", text, number))
                continue
            if text == "record":
                if after(at)[1] != one.name:
                    pending.add(depth)
                out.append(("keyword", text, number))
                continue
            if text == "let":
                lets.append((after(at)[1], depth))
            if text == "in" and lets and lets[-1][1] == depth:
                scope.add(lets.pop()[0], depth)
            if text in KEYWORDS and not (text == "in" and not lets and False):
                out.append(("keyword" if text != "_" else None, text, number))
                continue
            if stack and stack[-1] == "record" and after(at)[1] == "=" and after(at, -1)[1] in ("{", ";"):
                out.append(("field", text, number))
                continue
            if (own or field) and not case_named and depth == 0 and (text == one.name or field):
                case_named = after(at)[0] != "name"
                out.append(("own" if text == one.name else "case" if one.kind == "data" else "field", text, number))
                continue
            if clause and text == one.name and first:
                first = False
                out.append(("own", text, number))
                continue
            first = False
            fields = []
            step = at + 1
            while step + 1 < len(stream) and stream[step][0] == "dot" and stream[step + 1][0] in ("name", "number"):
                fields.append(stream[step + 1][1])
                step += 2
            if in_pattern:
                what = self.resolve(source, text, fields)
                if fields or (what is not None and self.is_case(what)):
                    if what is None:
                        raise source.fault(number, "nothing brings in `%s`" % text)
                    out.append((what, text, number))
                else:
                    scope.add(text, depth if pattern_at >= 0 else -1)
                    out.append(("local", text, number))
                continue
            if after(at)[1] == ":" and lets and lets[-1] == (text, depth) or after(at, -1)[1] == "let":
                out.append(("local", text, number))
                continue
            if scope.has(text) and not (fields and fields[0][:1].isupper() and text in source.modules):
                out.append(("local", text, number))
                continue
            what = (text in BUILT_IN and ("import", "", text)) or self.resolve(source, text, fields)
            if what is None:
                raise source.fault(number, "nothing brings in `%s`" % text)
            out.append((what, text, number))
        if stack:
            raise source.fault(lines[-1][0], "a bracket that nothing closes")
        return out
