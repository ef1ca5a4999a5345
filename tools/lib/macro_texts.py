"""Random texts with macros, and a text's tokens as a preprocessor has them, for a comparison with cpp."""
import re

TOKEN = re.compile(r'/\*.*?\*/|//[^\n]*|"(?:\\.|[^"\\\n])*"|\'(?:\\.|[^\'\\\n])*\'|[A-Za-z_]\w*|\d\w*|->|--|::|\.\.|\+\+|<<|>>|[=!<>]=|&&|\|\||!!|\?\?|##|"[^\n]*|[^\s\w]|\s+', re.S)
NAMES = ["A", "B", "C", "D", "F", "G", "H", "x", "y"]
SIGNS = ["1", "0", "2", "+", "-", "(", ")", ",", "==", "->", "::", '"s"', "'c'", "{", "}", ";", "!", "??"]
CONDITIONS = ["#ifdef A", "#ifndef B", "#if defined(A) && !defined B", "#if A == 1", "#if 1 ? 0 : 2", "#if (2 - 3 * 4) < 0 || 1/0", "#if 0x1F == 31 && 010 == 8", "#if -1 >> 1 == -1", "#if 'a' == 97", "#if A", "#if F(1)"]
ODD_LINES = ["// it's", "/* a\n#define A 3\n*/", "#pragma x", "#", '"a\\"b" /* c */', "x \\\n y"]


def split(text):
    """The tokens of a text, without blanks and comments."""
    return [found[0] for found in TOKEN.finditer(text) if found[0].strip() and not found[0].startswith(("/*", "//"))]


def token(source, parameters):
    """A token; a parameter often, where there is one. No bracket and no comma."""
    while True:
        found = source.choice(NAMES + list(parameters) * 4 + SIGNS)
        if found not in ("(", ")", ","):
            return found


def balanced(source, count, parameters=()):
    """Some tokens whose brackets are closed, with calls."""
    out = []
    for _ in range(count):
        kind = source.random()
        if kind < .2:
            out += ["("] + balanced(source, source.randrange(3), parameters) + [")"]
        elif kind < .45:
            out += [source.choice(["F", "G", "H"]), "("]
            for number in range(source.randrange(1, 3)):
                out += ([","] if number else []) + balanced(source, source.randrange(3), parameters)
            out.append(")")
        else:
            out.append(token(source, parameters))
    return out


def spelled(source, tokens):
    """Tokens as a text, with blanks where they would become others."""
    text = ""
    for one in tokens:
        is_word = bool(text) and (text[-1].isalnum() or text[-1] == "_") and (one[0].isalnum() or one[0] == "_")
        is_sign = bool(text) and text[-1] in "-+<>=!&|:?./#'\""
        text += " " if is_word or is_sign else source.choice(["", " ", " ", " ", "\t", "/* c */"])
        text += one
    return text


def definition(source):
    """A `#define` line."""
    name = source.choice(NAMES[:7])
    front = source.choice(["#", "# ", " #", "\t# ", "/* a */#"])
    if source.random() < .4:
        return "%sdefine %s %s" % (front, name, spelled(source, balanced(source, source.randrange(4))))
    parameters = source.sample(["x", "y", "z"], source.randrange(0, 3))
    body = balanced(source, source.randrange(5), parameters)
    if parameters and source.random() < .2:
        body.insert(source.randrange(len(body) + 1), "#" + source.choice(parameters))
    if len(body) > 1 and source.random() < .25:
        body.insert(source.randrange(1, len(body)), "##")
    text = spelled(source, body)
    if source.random() < .15:
        text = text.replace(" ", " \\\n", 1)
    return "%sdefine %s(%s) %s" % (front, name, ", ".join(parameters), text)


def macro_text(source):
    """A text with macros and conditions, which cpp refuses now and then."""
    lines, depth = [], 0
    for _ in range(source.randrange(4, 25)):
        kind = source.random()
        if kind < .3:
            if source.random() < .5:
                lines.append("#undef " + source.choice(NAMES[:7]))
            lines.append(definition(source))
        elif kind < .35:
            lines.append("#undef " + source.choice(NAMES))
        elif kind < .45:
            lines.append(source.choice(CONDITIONS))
            depth += 1
        elif kind < .5 and depth:
            lines.append(source.choice(["#else", "#elif 1", "#elif defined A"]))
        elif kind < .58 and depth:
            lines.append("#endif")
            depth -= 1
        elif kind < .62:
            lines.append(source.choice(ODD_LINES))
        else:
            lines.append(spelled(source, balanced(source, source.randrange(1, 7))))
    return "\n".join(lines + ["#endif"] * depth) + "\n"
