"""The text of an antt file taken apart: tokens, declarations, clauses, expressions. Only the subset that the definitions use; anything
else is an AnttError that names file and line.

An expression is a tuple whose first element says what it is: ("name", n), ("num", k), ("app", f, args), ("proj", e, field),
("lam", names, e), ("let", name, e, e), ("record", [(field, e)]), ("elim", e, [(pattern, e)]). A `do` block is its `◌>>=◌`.
A pattern is an expression until names are resolved. Types are not read, except for how many arguments a constructor takes."""
import re
from typing import NamedTuple


class AnttError(Exception):
    """The text is outside the subset, or names something that is not there."""


class Token(NamedTuple):
    kind: str  # name, num, proj (.field after a space), tight (.field after a name), or the character itself
    text: str
    line: int
    col: int
    first: bool  # the first of its line


class Param(NamedTuple):
    name: str  # None where the type has no binder
    type: str


class Con(NamedTuple):
    name: str
    params: tuple


class Module:
    """What a file declares."""

    def __init__(self, path):
        self.path = path
        self.uses = []  # (module path, [(name, name here)] or None for the module alone)
        self.data = {}  # type -> its constructors
        self.records = {}  # record -> its fields
        self.clauses = {}  # function -> [(patterns, expression)]
        self.types = set()  # abbreviations of types, and types of proofs: nothing to run


# ---- tokens
NAME = r"[^\s(){}.;,@\"«»]+"
TOKEN = re.compile(
    rf"(?P<skip>\s+|--[^\n]*|\{{-.*?-\}})|(?P<esc>«[^»]*»)|(?P<dotname>\.(?:«[^»]*»|{NAME}))|(?P<dot>\.)"
    rf"|(?P<name>{NAME})|(?P<punct>[(){{}};,])",
    re.S,
)
NUMBER = re.compile(r"0x[0-9a-f_]+|0o[0-7_]+|0b[01_]+|[0-9][0-9_]*")
USE = re.compile(r"^(?:pub )?use\s+([^\s{]+?)(?:\.\{([^}]*)\})?[ ]*$", re.M)


def plain(name):
    return name.strip("«»")


def kind_of(match, text, start):
    found = match.lastgroup
    if found == "name":
        return "num" if NUMBER.fullmatch(match.group()) else "name"
    if found == "dotname":
        return "proj" if start == 0 or text[start - 1].isspace() else "tight"
    return {"esc": "name", "dot": "."}.get(found, match.group())


def tokens_of(text, path):
    out, at, line, begin, last = [], 0, 1, 0, 0
    while at < len(text):
        match = TOKEN.match(text, at)
        if match is None:
            raise AnttError(f"{path}:{line}: no token here: {text[at:at + 20]!r}")
        if match.lastgroup != "skip":
            kind = kind_of(match, text, at)
            out.append(Token(kind, plain(match.group().lstrip(".")) or ".", line, at - begin, line != last))
            last = line
        line += match.group().count("\n")
        if "\n" in match.group():
            begin = at + match.group().rindex("\n") + 1
        at = match.end()
    return out


def uses_of(text):
    """The `use` lines, and the text without them."""
    uses = []
    for path, names in USE.findall(text):
        pairs = [re.split(r"\s+as\s+", n.strip()) for n in names.split(",") if n.strip()]
        uses.append((path, [(p[0], p[-1]) for p in pairs] if names else None))
    return uses, USE.sub(lambda m: "\n" * m.group().count("\n"), text)


# ---- declarations
MARKS = ("pub", "unfoldable", "abbrev")
OPEN, CLOSE = "({", ")}"


def blocks(tokens, path):
    """A list of tokens cut where a line starts at the column of the first one."""
    out = []
    for t in tokens:
        if t.first and t.col < tokens[0].col:
            raise AnttError(f"{path}:{t.line}: a line starts left of its block")
        if not out or t.first and t.col == tokens[0].col:
            out.append([])
        out[-1].append(t)
    return out


def depth_split(tokens, mark):
    """The parts between marks that stand in no bracket."""
    parts, depth = [[]], 0
    for t in tokens:
        depth += (t.kind in OPEN) - (t.kind in CLOSE)
        if depth == 0 and t.text == mark and t.kind == "name":
            parts.append([])
        else:
            parts[-1].append(t)
    return parts


def first_of(tokens, marks):
    """The place of the first of some names that stands in no bracket."""
    depth = 0
    for k, t in enumerate(tokens):
        depth += (t.kind in OPEN) - (t.kind in CLOSE)
        if depth == 0 and t.kind == "name" and t.text in marks:
            return k
    return None


def words(tokens):
    return " ".join(t.text for t in tokens)


def groups(tokens):
    """The bracketed groups that make up these tokens, or None where something stands outside."""
    out, depth = [], 0
    for t in tokens:
        if depth == 0:
            if t.kind not in OPEN:
                return None
            out.append([])
        depth += (t.kind in OPEN) - (t.kind in CLOSE)
        out[-1].append(t)
    return out


def params_of(tokens):
    """The explicit arguments of a constructor's type."""
    out = []
    for part in depth_split(tokens, "→")[:-1]:
        inner = groups(part)
        if inner is None or any(first_of(g[1:-1], (":",)) is None for g in inner):
            out.append(Param(None, words(part)))
            continue
        for g in inner:
            if g[0].kind == "(":
                k = first_of(g[1:-1], (":",)) + 1
                out += [Param(t.text, words(g[k + 1 : -1])) for t in g[1:k]]
    return tuple(out)


def members(tokens, path):
    """The lines under a `where`: names, and the tokens of their type."""
    for line in blocks(tokens, path) if tokens else []:
        k = first_of(line, (":",))
        if k is None:
            raise AnttError(f"{path}:{line[0].line}: no type")
        yield [t.text for t in line[:k] if t.text not in MARKS], line[k + 1 :]


class Reader:
    """The declarations of a file."""

    def __init__(self, text, path, fixity):
        self.module, self.fixity = Module(path), fixity
        self.module.uses, text = uses_of(text)
        tokens = tokens_of(text, path)
        if tokens:
            self.items(tokens)

    def items(self, tokens):
        for item in blocks(tokens, self.module.path):
            self.item(item)

    def item(self, item):
        k = 0
        while item[k].text in MARKS:
            k += 1
        head = item[k].text
        if head in ("mod", "unfolding", "infix", "infixl", "infixr"):
            return
        if head in ("module", "mutual"):
            return self.block(item[k:])
        if head in ("data", "record") and item[k].kind == "name":
            return self.type(head, item[k + 1 :])
        self.function(item[k:])

    def block(self, item):
        k = 0 if item[0].text == "mutual" else first_of(item, ("where",))
        if k is None or any(t.kind == "(" for t in item[:k]):
            raise AnttError(f"{self.module.path}:{item[0].line}: a block of another kind than `module _ {{..}} where`")
        if item[k + 1 :]:
            self.items(item[k + 1 :])

    def type(self, head, item):
        k = first_of(item, ("where",))
        under = [] if k is None else item[k + 1 :]
        if head == "record":
            self.module.records[item[0].text] = [name for names, _ in members(under, self.module.path) for name in names]
            return
        self.module.data[item[0].text] = [Con(n, params_of(tokens)) for names, tokens in members(under, self.module.path) for n in names]

    def function(self, item):
        k = first_of(item, (":", "="))
        if k is None:
            raise AnttError(f"{self.module.path}:{item[0].line}: neither a signature nor a clause: {words(item)[:60]}")
        if item[k].text == ":":
            if words(depth_split(item[k + 1 :], "→")[-1]).startswith("Type"):
                self.module.types.add(item[0].text)
            return
        left = Parser(item[:k], self).whole()
        name, patterns = (left[1][1], left[2]) if left[0] == "app" else (left[1], [])
        if name not in self.module.types:
            self.module.clauses.setdefault(name, []).append((patterns, Parser(item[k + 1 :], self).whole()))


# ---- expressions
STOP = {"in", "|", "]", "[", "↦", "←", "=", ":", "where"}
LAST = {"λ", "let", "do", "elim"}
SPACED = re.compile(r"◌(.+)◌")


class Parser:
    """An expression, by precedence. `limit` is the column of the `do` block around: a line that starts there ends an expression."""

    def __init__(self, tokens, reader):
        self.tokens, self.at, self.limit = tokens, 0, -1
        self.path, self.fixity = reader.module.path, reader.fixity

    def fail(self, what):
        t = self.tokens[min(self.at, len(self.tokens) - 1)] if self.tokens else None
        raise AnttError(f"{self.path}:{t.line if t else '?'}: {what}" + (f" at `{t.text}`" if t else ""))

    def peek(self):
        """The next token, or None where the expression ends."""
        if self.at >= len(self.tokens):
            return None
        t = self.tokens[self.at]
        return None if t.first and t.col <= self.limit else t

    def next(self, due=None):
        t = self.peek()
        if t is None or due is not None and t.text != due:
            self.fail(f"`{due or 'something'}` is missing")
        self.at += 1
        return t

    def whole(self):
        out = self.expr()
        if self.at < len(self.tokens):
            self.fail("not understood")
        return out

    def operator(self, t):
        return self.fixity.get(t.text) if t is not None and t.kind == "name" else None

    def expr(self, least=0):
        left = self.application()
        while True:
            found = self.operator(self.peek())
            if found is None or found[0] < least:
                return left
            level, side = found
            name = self.next().text
            right = self.expr(level if side == "infixr" else level + 1)
            left = ("app", ("name", f"◌{name}◌"), [left, right])

    def ends(self, t):
        return t is None or t.kind in ")};," or t.kind == "name" and (t.text in STOP or self.operator(t) is not None)

    def application(self):
        out, args = self.atom(), []
        while not self.ends(self.peek()):
            t = self.peek()
            if t.kind == "{":
                self.skip_braces()
            elif t.kind == "proj":
                self.at += 1
                out, args = ("proj", ("app", out, args) if args else out, t.text), []
            else:
                args.append(self.atom())
                if t.kind == "name" and t.text in LAST:
                    break
        return ("app", out, args) if args else out

    def skip_braces(self):
        depth = 0
        while True:
            t = self.next()
            depth += (t.kind == "{") - (t.kind == "}")
            if depth == 0:
                return

    def atom(self):
        t = self.next()
        if t.kind == "(":
            out = self.inside()
        elif t.kind == "num":
            out = ("num", int(t.text.replace("_", ""), 0))
        elif t.kind == "name":
            special = {"λ": self.lam, "let": self.let, "do": self.do, "elim": self.elim, "record": self.record}.get(t.text)
            out = special() if special else ("name", t.text)
        else:
            self.at -= 1
            self.fail("no expression")
        while self.peek() is not None and self.peek().kind == "tight":
            out = ("proj", out, self.next().text)
        return out

    def inside(self):
        limit, self.limit = self.limit, -1
        out = self.expr()
        self.next(")")
        self.limit = limit
        return out

    def binder(self):
        t = self.next()
        if t.kind == "name":
            return t.text
        if t.kind != "(":
            self.fail("a pattern that is no name")
        name = self.next().text
        while self.next().text != ")":
            pass
        return name

    def lam(self):
        names = []
        while self.peek() is not None and self.peek().kind != ".":
            names.append(self.binder())
        self.next(".")
        return ("lam", names, self.expr())

    def equation(self):
        """`x = e` or `x : T = e`."""
        name = self.binder()
        if self.peek() is not None and self.peek().text == ":":
            while self.peek().text != "=":
                self.next()
        self.next("=")
        return name, self.expr()

    def let(self):
        name, value = self.equation()
        self.next("in")
        return ("let", name, value, self.expr())

    def record(self):
        self.next("{")
        limit, self.limit = self.limit, -1
        fields = []
        while self.peek().kind != "}":
            fields.append(self.equation())
            if self.peek().kind == ";":
                self.next()
        self.next("}")
        self.limit = limit
        return ("record", fields)

    def elim(self):
        what = self.expr()
        self.next("[")
        limit, self.limit = self.limit, -1
        arms = []
        while self.peek().text != "]":
            if self.peek().text == "|":
                self.next()
            pattern = self.expr()
            self.next("↦")
            arms.append((pattern, self.expr()))
        self.next("]")
        self.limit = limit
        return ("elim", what, arms)

    # ---- do
    def do(self):
        start = self.next()
        self.at -= 1
        limit, self.limit = self.limit, start.col
        out = self.statements(start.col)
        self.limit = limit
        return out

    def statement(self):
        """Its name or None, its expression, and whether it is a `let`. The token that starts it stands at the limit."""
        t = self.tokens[self.at] = self.tokens[self.at]._replace(first=False)
        if t.kind == "name" and t.text == "let":
            self.at += 1
            return (*self.equation(), True)
        if self.at + 1 < len(self.tokens) and self.tokens[self.at + 1].text == "←":
            self.at += 2
            return t.text, self.expr(), False
        return None, self.expr(), False

    def statements(self, column):
        name, value, is_let = self.statement()
        more = self.at < len(self.tokens) and self.tokens[self.at].first and self.tokens[self.at].col == column
        if not more:
            if name is not None:
                self.fail("a `do` block that ends in a binding")
            return value
        if name is None:
            self.fail("a statement that binds nothing")
        rest = self.statements(column)
        return ("let", name, value, rest) if is_let else ("app", ("name", "◌>>=◌"), [value, ("lam", [name], rest)])


def fixities(text):
    """The operators that a file declares: name -> (level, side)."""
    out = {}
    for side, level, names in re.findall(r"^\s*(infix[lr]?) (\d+) (.+)$", text, re.M):
        for name in names.split():
            match = SPACED.fullmatch(name)
            if match:
                out[match.group(1)] = (int(level), side)
    return out


def read_module(text, path, fixity):
    return Reader(text, path, {**fixity, **fixities(text)}).module
