"""A second reading of the names of a model that is played, by tokens alone: where each is, and where it is declared.

Columns of a place are bytes of a text of ASCII. The tokens of an inline replace its calls and keep their places, so a token of an inline's body may mean several names."""
import collections
import re

TOKEN = re.compile(r"""(?P<gap>\s+|/\*.*?\*/|//[^\n]*|\#[^\n]*)|(?P<string>"(?:[^"\\]|\\.)*")|(?P<char>'(?:[^'\\]|\\.)')|(?P<name>[A-Za-z_]\w*)|(?P<number>\d+)"""
                   r"""|(?P<sign>::|->|\.\.|\+\+|--|<<|>>|<=|>=|==|!=|&&|\|\||!!|\?\?|.)""", re.S)
TYPES = {"bit", "bool", "byte", "pid", "short", "int", "mtype", "chan", "unsigned"}
WORDS = TYPES | set("active assert atomic break d_step do else empty enabled eval false fi for full goto hidden if init inline len local nempty nfull od of "
                    "pc_value printf printm priority proctype provided run select show skip timeout true typedef unless xr xs".split())
OWN = {"_", "_pid", "_nr_pr", "_last"}
Token = collections.namedtuple("Token", "at text kind")
Declared = collections.namedtuple("Declared", "at sort type")


def tokens_of(text):
    found = []
    for match in TOKEN.finditer(text):
        if match.lastgroup != "gap":
            found.append(Token(match.start(), match.group(), match.lastgroup))
    return found


def is_name(token):
    return token.kind == "name" and token.text not in WORDS


def closing(tokens, at, opens, closes):
    """The number of the token that closes what the token at `at` opens."""
    depth = 0
    for number in range(at, len(tokens)):
        depth += (tokens[number].text == opens) - (tokens[number].text == closes)
        if depth == 0:
            return number
    return len(tokens)


def called_at(text, offset):
    """The name of what is called where a place stands, whether by `run`, and how many commas lie before the place in the call; or None. The brackets that are open
    there are kept from the first token on: the number of each, its commas, and whether a statement has ended in it."""
    tokens, open_brackets = tokens_of(text[:offset]), []
    for number, token in enumerate(tokens):
        if token.text in ("(", "[", "{"):
            open_brackets.append([number, 0, token.text == "{"])
        elif token.text in (")", "]", "}"):
            open_brackets = open_brackets[:-1]
        elif open_brackets:
            open_brackets[-1][1] += token.text == ","
            open_brackets[-1][2] |= token.text in (";", "::", "od", "fi")
    while open_brackets and not open_brackets[-1][2]:
        number, commas, _ = open_brackets.pop()
        if tokens[number].text == "(" and number > 1 and is_name(tokens[number - 1]):
            head = tokens[number - 2].text
            return None if head in ("proctype", "inline") else (tokens[number - 1].text, head == "run", commas)
    return None


def heading(text, name, word):
    """The heading of the first definition of a name, and where in it each of its parameters begins and ends; or None."""
    tokens = tokens_of(text)
    for number in range(len(tokens) - 2):
        if [token.text for token in tokens[number:number + 3]] == [word, name, "("]:
            at, end = tokens[number].at, closing(tokens, number + 2, "(", ")")
            parts = [[]]
            for token in tokens[number + 3:end]:
                if token.text in (",", ";"):
                    parts.append([])
                else:
                    parts[-1].append(token)
            return text[at:tokens[end].at + 1], [[part[0].at - at, part[-1].at + len(part[-1].text) - at] for part in parts if part]
    return None


def signature(text, offset):
    """What is called at a place: the heading, its parameters, and the number of the one at the place; or None."""
    called = called_at(text, offset)
    found = called and heading(text, called[0], "proctype" if called[1] else "inline")
    return found and (*found, called[2])


class Reading:
    """The names of a text. `inner` are those of inlines and of their parameters, `outer` the others: pairs of a place and a declaration's place, in the
    order in which they are read; `sorts` says of each declaration what it is."""

    def __init__(self, text):
        self.inner, self.outer, self.sorts, self.lengths = [], [], {}, {}
        self.inlines, self.globals, self.fields = {}, {}, {}
        # of each declaration its type; whose it is, by the place of the unit's name; the parameters of inlines; where each unit's body begins and ends
        self.kinds, self.owners, self.parameters, self.bodies, self.unit = {}, set(), {}, [], None
        self.text = text
        tokens = self.without_inlines(tokens_of(text))
        self.proctypes = {}
        for at, token in enumerate(tokens[:-1]):
            if token.text == "proctype":
                self.proctypes[tokens[at + 1].text] = tokens[at + 1].at
        self.units(tokens)

    def note(self, into, token, declared):
        into.append((token.at, declared))
        self.lengths[token.at] = len(token.text)

    def without_inlines(self, tokens):
        rest, at = [], 0
        while at < len(tokens):
            if tokens[at].text == "inline":
                name, end = tokens[at + 1], closing(tokens, at + 2, "(", ")")
                parameters = [t for t in tokens[at + 3:end] if is_name(t)]
                last = closing(tokens, end + 1, "{", "}")
                body = tokens[end + 2:last]
                self.inlines[name.text] = (name, [p.text for p in parameters], body)
                self.bodies.append((tokens[at].at, tokens[last].at, name.at))
                self.parameters.update((p.at, name.at) for p in parameters)
                self.note(self.inner, name, name.at)
                self.sorts[name.at] = 12
                for parameter in parameters:
                    self.note(self.inner, parameter, parameter.at)
                    self.sorts[parameter.at] = 13
                    for token in body:
                        if is_name(token) and token.text == parameter.text:
                            self.note(self.inner, token, parameter.at)
                at = last + 1
            else:
                rest.append(tokens[at])
                at += 1
        for number, token in enumerate(tokens[:-1]):
            site = self.inlines.get(token.text)
            if site and site[0].at != token.at and tokens[number + 1].text == "(":
                self.note(self.inner, token, site[0].at)
        return self.replaced(rest)

    def replaced(self, tokens):
        """The tokens with calls of inlines replaced by their bodies."""
        out, at = [], 0
        while at < len(tokens):
            token = tokens[at]
            if token.text in self.inlines and at + 1 < len(tokens) and tokens[at + 1].text == "(" and token.kind == "name":
                _, parameters, body = self.inlines[token.text]
                end = closing(tokens, at + 1, "(", ")")
                arguments, depth, one = [], 0, []
                for part in tokens[at + 2:end]:
                    depth += (part.text in "([{") - (part.text in ")]}")
                    if part.text == "," and depth == 0:
                        arguments.append(one)
                        one = []
                    else:
                        one.append(part)
                arguments.append(one)
                with_arguments = dict(zip(parameters, arguments))
                inside = []
                for part in body:
                    inside += with_arguments.get(part.text, [part]) if part.kind == "name" else [part]
                out += [Token(token.at, "{", "sign")] + self.replaced(inside) + [Token(token.at, "}", "sign")]
                at = end + 1
            else:
                out.append(token)
                at += 1
        return out

    def declare(self, scope, token, sort, kind=None):
        if token.text not in scope:
            scope[token.text] = Declared(token.at, sort, kind)
            self.sorts[token.at] = sort
            self.kinds[token.at] = kind
            self.owners.add((token.at, None if scope is self.globals else self.unit))
        self.note(self.outer, token, scope[token.text].at)

    def is_declaration(self, tokens, at):
        """Whether a declaration of variables begins here: its type's number, behind words that may stand before it, or None."""
        while at < len(tokens) and tokens[at].text in ("hidden", "show", "local"):
            at += 1
        if at + 1 >= len(tokens) or tokens[at].kind != "name":
            return None
        if tokens[at].text in TYPES or tokens[at].text in self.fields:
            if is_name(tokens[at + 1]) or tokens[at].text == "mtype" and tokens[at + 1].text == ":":
                return at
        return None

    def variables(self, tokens, at, scope, sort, outer):
        """Reads the declaration of variables whose type stands at `at`, and answers the number of the token behind it."""
        kind = tokens[at].text
        if kind in self.fields:
            self.note(self.outer, tokens[at], self.globals[kind].at)
        at += 1
        depth, is_new = 0, True
        while at < len(tokens):
            token = tokens[at]
            if depth == 0 and token.text in (";", "->", "}", ")", "::"):
                return at
            if depth == 0 and token.text == ",":
                is_new = True
            elif is_new and is_name(token):
                self.declare(scope, token, sort, kind)
                is_new = False
            elif token.text == "of":
                at = self.types(tokens, at + 1)
                continue
            elif is_name(token) and depth + 1:
                at = self.reference(tokens, at, scope, outer)
                continue
            depth += (token.text in ("(", "[", "{")) - (token.text in (")", "]", "}"))
            if depth == 0 and not is_new and tokens[at + 1:at + 2] and tokens[at + 1].kind == "name" and self.is_declaration(tokens, at + 1) is not None:
                return at + 1
            at += 1
        return at

    def types(self, tokens, at):
        """The types of a channel's messages."""
        while tokens[at].text != "}":
            if tokens[at].text in self.fields:
                self.note(self.outer, tokens[at], self.globals[tokens[at].text].at)
            at += 1
        return at + 1

    def reference(self, tokens, at, scope, outer):
        """Reads a name and the fields behind it."""
        token = tokens[at]
        found = scope.get(token.text) or outer.get(token.text)
        if token.text in OWN:
            return at + 1
        if found is None:
            if token.text in self.proctypes:
                self.note(self.outer, token, self.proctypes[token.text])
            return at + 1
        self.note(self.outer, token, found.at)
        at += 1
        while at < len(tokens) and tokens[at].text in ("[", "."):
            if tokens[at].text == "[":
                end = closing(tokens, at, "[", "]")
                inside = at + 1
                while inside < end:
                    inside = self.reference(tokens, inside, scope, outer) if is_name(tokens[inside]) else inside + 1
                at = end + 1
            else:
                found = self.fields.get(found.type, {}).get(tokens[at + 1].text) if found else None
                if found:
                    self.note(self.outer, tokens[at + 1], found.at)
                at += 2
        return at

    def body(self, tokens, scope):
        labels, raised = {}, {}
        for at, token in enumerate(tokens[:-1]):
            if is_name(token) and tokens[at + 1].text == ":" and (at == 0 or tokens[at - 1].text in ("{", ";", "->", "::", ":", "}", "fi", "od")):
                labels.setdefault(token.text, token.at)
                self.sorts.setdefault(token.at, 20)
                self.owners.add((labels[token.text], self.unit))
        at = 0
        while at < len(tokens):
            token = tokens[at]
            kind = self.is_declaration(tokens, at)
            if token.text == "for" and tokens[at + 3].text == ":":
                # the variable of a loop is raised behind its body, and may be another then
                raised.setdefault(closing(tokens, closing(tokens, at + 1, "(", ")") + 1, "{", "}"), at + 2)
            if at in raised:
                self.reference(tokens, raised[at], scope, self.globals)
            if kind is not None:
                at = self.variables(tokens, kind, scope, 13, self.globals)
            elif token.text == "goto":
                self.note(self.outer, tokens[at + 1], labels[tokens[at + 1].text])
                at += 2
            elif is_name(token) and token.text in labels and tokens[at + 1].text == ":":
                self.note(self.outer, token, labels[token.text])
                at += 2
            elif is_name(token):
                at = self.reference(tokens, at, scope, self.globals)
            else:
                at += 1

    def units(self, tokens):
        at = 0
        while at < len(tokens):
            token, kind = tokens[at], self.is_declaration(tokens, at)
            if token.text == "typedef":
                name, end = tokens[at + 1], closing(tokens, at + 2, "{", "}")
                self.declare(self.globals, name, 23, None)
                self.fields[name.text] = scope = {}
                self.unit = name.at
                self.bodies.append((tokens[at + 2].at, tokens[end].at, name.at))
                inside, within = at + 3, tokens[:end]
                while inside < end:
                    start = self.is_declaration(within, inside)
                    inside = self.variables(within, start, scope, 8, self.globals) if start is not None else inside + 1
                at = end + 1
            elif token.text == "mtype" and tokens[at + 1].text in ("=", "{"):
                end = closing(tokens, at + 1 + (tokens[at + 1].text == "="), "{", "}")
                for name in tokens[at:end]:
                    if is_name(name):
                        self.declare(self.globals, name, 22)
                at = end + 1
            elif token.text == "proctype":
                name, end = tokens[at + 1], closing(tokens, at + 2, "(", ")")
                self.declare(self.globals, name, 5)
                opens = next(number for number in range(end, len(tokens)) if tokens[number].text == "{")
                last = closing(tokens, opens, "{", "}")
                scope, inside, within = {}, at + 3, tokens[:end]
                self.unit = name.at
                self.bodies.append((token.at, tokens[last].at, name.at))
                while inside < end:
                    start = self.is_declaration(within, inside)
                    inside = self.variables(within, start, scope, 13, self.globals) if start is not None else inside + 1
                self.body(tokens[opens + 1:last], scope)
                at = last + 1
            elif token.text == "init":
                self.note(self.outer, token, token.at)
                opens = next(number for number in range(at, len(tokens)) if tokens[number].text == "{")
                last = closing(tokens, opens, "{", "}")
                self.unit = token.at
                self.bodies.append((token.at, tokens[last].at, token.at))
                self.body(tokens[opens + 1:last], {})
                at = last + 1
            elif kind is not None:
                at = self.variables(tokens, kind, self.globals, 13, {})
            elif is_name(token):
                at = self.reference(tokens, at, self.globals, {})
            else:
                at += 1

    def name_at(self, offset):
        """The place of the name that touches a place, and where it is declared."""
        for at, declared in self.inner + self.outer:
            if at <= offset <= at + self.lengths[at]:
                return at, declared
        return None

    def declared_at(self, at):
        return sorted({d for a, d in self.inner + self.outer if a == at})

    def places_of(self, declared):
        return sorted({a for a, d in self.inner + self.outer if d == declared})

    def spelled(self, at):
        return self.text[at:at + self.lengths[at]]

    def unit_at(self, offset):
        """The place of the name of the unit in which a place stands."""
        return next((name for start, end, name in self.bodies if start < offset <= end), None)

    def of_unit(self, unit, sorts):
        """What a unit, or the text for None, declares of these sorts."""
        return {at for at, owner in self.owners if owner == unit and self.sorts[at] in sorts} | {
            at for at, owner in self.parameters.items() if owner == unit and 13 in sorts} | ({at for at in self.inline_names() if 12 in sorts} if unit is None else set())

    def inline_names(self):
        return {name.at for name, _, _ in self.inlines.values()}

    def offered(self, offset):
        """The names that may stand at a place of which the text is read: a set, or None where that is not said here."""
        front = tokens_of(self.text[:offset])
        typed = ""
        if front and front[-1].kind == "name" and front[-1].at + len(front[-1].text) == offset:
            typed = front.pop().text
        last, unit = front[-1].text if front else "", self.unit_at(offset)
        if last == "run":
            found = self.of_unit(None, {5})
        elif last == "goto":
            found = self.of_unit(unit, {20})
        elif last == ".":
            if unit in self.inline_names():
                return None
            return {name for name in self.fields_before(front[:-1]) if name.startswith(typed)}
        else:
            found = {at for at in self.of_unit(None, {13, 22, 23, 12}) if at < offset}
            found |= {at for at in self.of_unit(unit, {13}) if at < offset} if unit is not None else set()
        return {self.spelled(at) for at in found if self.spelled(at).startswith(typed)}

    def fields_before(self, front):
        """The fields of the reference that stands last among tokens."""
        depth = 0
        while front and (depth or front[-1].text == "]"):
            depth += (front[-1].text == "]") - (front[-1].text == "[")
            front = front[:-1]
        declared = self.declared_at(front[-1].at) if front else []
        return self.fields.get(self.kinds.get(declared[0]), {}) if declared else {}

    def colours(self):
        """Each token that is coloured, in the order of the text: its place, its length, and the kinds that it may have."""
        numbers = {13: 0, 8: 1, 22: 2, 23: 3, 5: 4, 12: 5, 20: 7}
        out = []
        for token in tokens_of(self.text):
            if token.kind == "number":
                kinds = {9}
            elif token.kind == "string":
                kinds = {10}
            elif is_name(token):
                kinds = {6 if at in self.parameters else numbers[self.sorts[at]] for at in self.declared_at(token.at)}
            else:
                kinds = {8} if token.kind == "name" else set()
            if kinds:
                out.append((token.at, len(token.text), kinds))
        return out
