import os, resource, subprocess, sys, tempfile

SIZES = [64 * 1024, 256 * 1024, 1024 * 1024]
MOST_SECONDS = 60

def many(size, head, part, tail):
    """A head, as many parts as go into the size, and a tail: a part is a text of its number."""
    parts, length, number = [], len(head) + len(tail), 0
    while True:
        text = part(number)
        if length + len(text) > size:
            return head + "".join(parts) + tail
        parts.append(text)
        length += len(text)
        number += 1

def fixed(text):
    return lambda number: text

def groups(count, opening, part, closing):
    """Parts in groups of so many, since a text without a break is refused early as too deep."""
    return lambda number: opening + "".join(part(number * count + at) for at in range(count)) + closing

def late(head, part, tail, step):
    """Half of the size declares, and half steps what was declared last."""
    def text(size):
        model = many(size // 2, head, part, tail)
        last = model[len(head):len(model) - len(tail)].count(";") - 1
        return many(size, model, fixed(step % last + ";"), "skip}")
    return text

def gotos(size):
    """Each statement goes to the one before it, and the first one ends."""
    return many(size, "init{L0:skip;", lambda n: "L%d:goto L%d;" % (n + 1, n), "skip}")

def chain(size):
    """Each typedef has a field of the one before it, and the last one an array."""
    text = many(size - 50, "typedef T0{byte x=1};", lambda n: "typedef T%d{T%d a};" % (n + 1, n), "")
    return text + "T%d a[1000000];init{skip}" % (text.count(";") - 1)

def stairs(size):
    """Each typedef has a field of the one before it, and a number of its own."""
    text = many(size - 50, "typedef T0{byte a=1};", lambda n: "typedef T%d{T%d t;byte a=1};" % (n + 1, n), "")
    return text + "T%d x;init{x.a++}" % (text.count("typedef") - 1)

def names(size):
    """Names of letters alone."""
    letters = "abcdefghijklmnopqrstuvwxyz"
    name = lambda n: "".join(letters[n // 26 ** k % 26] for k in range(5))
    return many(size, "", groups(100, "byte", lambda n: (" " if n % 100 == 0 else ",") + "n" + name(n), ";"), "init{skip}")

def calls(size):
    """An inline for each call, 10,000 at most."""
    count = min(size // 40, 10000)
    return "".join("inline f%d(){skip}" % n for n in range(count)) + "init{" + "".join("f%d()" % n for n in range(count)) + "}"

def used_often(size):
    """An argument of many tokens, which is used a thousand times: too many tokens stand in its place."""
    return "inline f(a){%s}init{f(%s)}" % ("a;" * 1000, "1 " * (size // 10))

def levels(size):
    """Calls within one another, nearly as deep as may be, until there are too many tokens."""
    text = "".join("inline f%d(){f%d()}" % (n, n + 1) for n in range(97)) + "inline f97(){skip}"
    return many(size, text + "init{", fixed("f0()"), "}")

def long_name(size):
    """A name of a third of the text, called again and again by way of a body."""
    name = "n" * (size * 3 // 10)
    return "inline %s(){skip}inline g(n){%s}init{g(%s)}" % (name, "n()" * min(size // 40, 28000), name)

SHOWN = ["-g", "-l"]
FAMILIES = [
    ("a constant of a field", [], lambda size: many(min(size, 1000), "typedef A{byte x=1", fixed("+1"), "};A a[1000000];init{skip}")),
    ("typedefs and cells", [], lambda size: many(size, "typedef A{byte x=1};", lambda n: "typedef T%d{int i};" % n, "A a[1000000];init{skip}")),
    ("cells of processes", [], lambda size: "typedef A{byte x=1};active [255] proctype P(){A a[%d];skip}" % (size // 16)),
    ("a chain of typedefs", [], chain),
    ("stairs of typedefs", [], stairs),
    ("a late global", SHOWN, late("", lambda n: "int g%d;" % n, "init{", "g%d++")),
    ("a late field", SHOWN, late("typedef R{int z", lambda n: ";int g%d" % n, "};R r;init{", "r.g%d++")),
    ("a late local", SHOWN, late("init{", lambda n: "int g%d;" % n, "", "g%d++")),
    ("names", [], names),
    ("options", [], lambda size: many(size, "init{do", fixed("::skip"), " od}")),
    ("labels", [], lambda size: many(size, "init{", groups(100, "", lambda n: "L%d:" % n, "skip;"), "skip}")),
    ("gotos", [], gotos),
    ("braces", [], lambda size: many(size, "init{", fixed("{" * 90 + "skip" + "}" * 90 + ";"), "skip}")),
    ("nested ifs", [], lambda size: many(size, "init{", fixed("if::" * 40 + "skip" + " fi" * 40 + ";"), "skip}")),
    ("nested unlesses", [], lambda size: many(size, "init{", fixed("{" * 40 + "skip" + "}unless{skip}" * 40 + ";"), "skip}")),
    ("sends", [], lambda size: many(size, "chan c=[1] of{byte,byte};init{", fixed("c!1,2;"), "skip}")),
    ("receives", [], lambda size: many(size, "chan c=[1] of{byte,byte};byte a;init{", fixed("c?a,2;"), "skip}")),
    ("long sums", [], lambda size: many(size, "int a;init{", groups(400, "a=1", fixed("+1"), ";"), "skip}")),
    ("assignments", [], lambda size: many(size, "int a,b;init{", fixed("a=a*3+b;"), "skip}")),
    ("typedefs", [], lambda size: many(size, "", lambda n: "typedef T%d{byte a,b};" % n, "init{skip}")),
    ("mtype names", [], lambda size: many(size, "", groups(100, "mtype={", lambda n: (",m%d" if n % 100 else "m%d") % n, "};"), "init{skip}")),
    ("inlines", [], calls),
    ("an argument used often", [], used_often),
    ("calls within one another", [], levels),
    ("calls of a long name", [], long_name),
    ("arguments of one call", [], lambda size: "inline f(%s){skip}init{f(%s)}" % (",".join("p%d" % n for n in range(size // 12)), ",".join("1" * (size // 12)))),
    ("calls without an end", [], lambda size: many(size, "inline f(a){skip}init{", fixed("f("), "}")),
    ("loops", [], lambda size: many(size, "int a;init{", fixed("for(a:1..2){a=a};"), "skip}")),
    ("loops in loops", [], lambda size: many(size, "int a;init{", fixed("for(a:1..2){" * 18 + "skip" + "}" * 18 + ";"), "skip}")),
    ("selects", [], lambda size: many(size, "int a;init{", fixed("select(a:1..2);"), "skip}")),
    ("channels", [], lambda size: many(size, "", lambda n: "chan c%d=[1] of{byte};" % n, "init{skip}")),
]

def limit():
    resource.setrlimit(resource.RLIMIT_CPU, (MOST_SECONDS, MOST_SECONDS))

def played(program, words, text):
    with tempfile.NamedTemporaryFile(suffix=".pml") as file:
        file.write(text.encode())
        file.flush()
        child = subprocess.Popen([program, *words, file.name], stdin=subprocess.DEVNULL, stdout=subprocess.PIPE, stderr=subprocess.STDOUT, preexec_fn=limit)
        output = child.stdout.read()
        _, status, used = os.wait4(child.pid, 0)
        last = output.decode(errors="replace").strip().split("\n")[-1]
        return used.ru_utime + used.ru_stime, used.ru_maxrss / 1024, last[:50]

print("family: bytes, seconds (growth), MB (growth), answer", flush=True)
for name, words, text_of in FAMILIES:
    before = None
    for size in SIZES:
        text = text_of(size)
        seconds, memory, answer = played(sys.argv[1], words, text)
        growth = (seconds / max(before[0], 0.01), memory / before[1]) if before else (1, 1)
        print("%s: %d, %.2f (%.1f), %.0f (%.1f), %s" % (name, len(text), seconds, growth[0], memory, growth[1], answer), flush=True)
        before = (seconds, memory)
        if seconds >= MOST_SECONDS - 1:
            break
