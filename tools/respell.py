#!/usr/bin/env python3
"""Brings a repository's own antt names to the kit's spelling (CONTRACT_STYLE.md, "Names"): types and facts in UpperCamelCase, all else in
snake_case, and a dash only where it joins two names.

usage: python3 respell.py               at the top of the repository: rewrites crates/, docs/, README.md and the Python tools in place
       python3 respell.py --list        prints the map (old, new, kinds, where declared) and writes nothing
       python3 respell.py --back-check  shows that in no scope two old names have one new name; status 1 if some do
       python3 respell.py --dry         as the first form, but writes nothing

A lemma's name is cut into runs: the longest run of its words that is the name of something its own statement cites (a definition, a type, a
constructor, a field; no bound variable) is a name, every other word is plain. '-' joins two names, '_' all else. What is no lemma has only '_'.
"""
import collections
import os
import re
import sys

W = r'[^\s(){}.;,@"«»]+'
WORD = re.compile(W)
QUIET = re.compile(r'"(?:[^"\\\n]|\\.)*"|(?<![^\s(){}.;,@"«»])--[^\n]*|\{-.*?-\}', re.S)
SIG = re.compile(rf"^( *)((?:(?:unfoldable|abbrev|pub|pattern|axiom) )*)((?:{W} )+?)((?:\{{[^{{}}]*\}} )*):(?: (.*))?$")
HEAD = re.compile(rf"^( *)((?:pub |abbrev |unfoldable )*)(record|data) ({W})( .*)?$")
USE = re.compile(rf"(?<![^\s(){{}};])(use) ({W}(?:\.{W})*)(?:(\.\{{)([^{{}}]*)(\}}))?(?: as ({W}))?")
OPEN = re.compile(r"(?<![^\s(){};])open ([^\n{]*?)use \{([^{}]*(?:\{[^{}]*\}[^{}]*)*)\}")
CHAIN = re.compile(rf"{W}(?:\.{W})*|\.{W}(?:\.{W})*")
KEYWORDS = set(
    "data record deriving module where use mod pub package open as unfoldable abbrev axiom unfold unfolding ruleset mutual infix infixl infixr "
    "elim let in do λ ∀ Type 𝕀 𝔽 coe fcoe tcoe hcom com ∨ ∧ rw simp search grw cc omega grind hlevel assumption first_of".split()
)
NO_NAME = set("let use open module λ where = | → ↦ elim record in × infixl infixr infix".split())
RUST = re.compile(
    r"""//[^\n]*|/\*.*?\*/|[bc]?r(#*)".*?"\1|[bc]?"(?:\\.|[^"\\])*"|b?'(?:\\u\{[0-9a-fA-F_]+\}|\\x..|\\.|[^'\\])'|'?\w+|\s+|.""",
    re.S,
)
CLAUSE = re.compile(r"(?:requires|ensures|decreases|invariant)\s*\*?\s*(?:\w+\s*)?\{|ghost\s*(?:\w+\s*(?::\s*(?:(?:owns|lends)\s*)?|=\s*))?\{")
GHOST_USE = re.compile(r"ghost\s+use\b[^;]*;")
SPAN = re.compile(r"(`+)(?:[^\n]|\n(?!\s*\n))*?\1")
FENCE = re.compile(r"^( *)(`{3,})[^\n`]*\n.*?^\1\2 *$", re.S | re.M)
PYTHON = re.compile(r'"""(?:\\.|.)*?"""|\'\'\'(?:\\.|.)*?\'\'\'|"(?:\\.|[^"\\\n])*"|\'(?:\\.|[^\'\\\n])*\'|#[^\n]*', re.S)

# Old name -> new name, where the rule's spelling would meet another name in a scope.
OTHER = {
    # constructors of Action: the definition has a function of each name, which does what the call does (incRefcount, ..)
    "inc-refcount": "do_inc_refcount",
    "dec-refcount": "do_dec_refcount",
    "inc-refcount-all": "do_inc_refcount_all",
    "dec-refcount-all": "do_dec_refcount_all",
    "set-piece-priority": "do_set_piece_priority",
    "mark-as-downloading": "do_mark_as_downloading",
    "mark-as-writing": "do_mark_as_writing",
    "mark-as-finished": "do_mark_as_finished",
    "mark-as-canceled": "do_mark_as_canceled",
    "abort-download": "do_abort_download",
    "lock-piece": "do_lock_piece",
    "piece-passed": "do_piece_passed",
    "pick-pieces": "do_pick_pieces",
    # constructors of the questions: the definition has a function of each name, which answers it (numHave, ..)
    "blocks-per-piece": "ask_blocks_per_piece",
    "blocks-in-piece": "ask_blocks_in_piece",
    "payload-blocks-in-piece": "ask_payload_blocks_in_piece",
    "num-have": "ask_num_have",
    "num-filtered": "ask_num_filtered",
    "num-have-filtered": "ask_num_have_filtered",
    "have-piece": "ask_have_piece",
    "list-place": "ask_list_place",
    # names of modules for one file, beside the definitions openGap and closeGap
    "open-gap": "open_gap_code",
    "close-gap": "close_gap_code",
}
# The same for a name in one file.
OTHER_IN = {
    # a lemma beside the constructor total_size; the field totalSize is total_size
    ("crates/model/proofs/image/Replies.antt", "totalSize"): "total_same",
    # a lemma beside the definition inQueue that the file brings in
    ("crates/memory_queues/proofs/EnterLaws.antt", "in-queue"): "is_in_queue",
}
# Names that stay.
STAY = set()


def blank(t):
    return QUIET.sub(lambda m: re.sub(r"[^\n]", " ", m[0]), t)


def read(p):
    with open(p, encoding="utf-8", newline="") as f:
        return f.read()


# ---- declarations
def signature(lines, n, indent):
    out = [lines[n]]
    for l in lines[n + 1 :]:
        if l.strip() and len(l) - len(l.lstrip(" ")) <= indent:
            break
        if re.match(r" *(unfolding|where)\b", l):
            break
        out.append(l)
    return " ".join(out)


def is_type(s):
    depth, last = 0, 0
    for i, c in enumerate(s):
        if c in "({":
            depth += 1
        elif c in ")}":
            depth -= 1
        elif c == "→" and depth == 0:
            last = i + 1
    return bool(re.match(r"\s*Type\b", s[last:]))


def declarations(code):
    """(name, kind, indent, signature, line) of each thing that a text declares; kind is type, field, ctor or fn."""
    lines, out, block = code.split("\n"), [], []
    for n, l in enumerate(lines):
        if not l.strip():
            continue
        indent = len(l) - len(l.lstrip(" "))
        while block and indent <= block[-1][0]:
            block.pop()
        h = HEAD.match(l)
        if h and " = " not in l.split(" : ")[0]:
            out.append((h[4], "type", indent, signature(lines, n, indent), n))
            block.append((indent, h[3], n))
            continue
        m = SIG.match(l)
        if not m or NO_NAME & set(m[3].split()):
            continue
        kind = {"record": "field", "data": "ctor"}[block[-1][1]] if block else "fn"
        s = signature(lines, n, indent)
        if kind == "fn" and is_type(s.split(" :", 1)[1] if " :" in s else ""):
            kind = "type"
        out += [(x, kind, indent, s, n) for x in m[3].split()]
    return out


# ---- the words of a name
def words(name):
    """The words of a name: a part that begins with a capital (a type's name) is one word."""
    out = []
    for part in re.split(r"[-_·]", name):
        if re.match(r"[A-Z]\w*[a-z]", part):
            out.append(part)
        else:
            part = re.sub(r"(?<=[A-Z])(?=[A-Z][a-z])|(?<=[a-z0-9])(?=[A-Z])", "_", part)
            out += [p[0].lower() + p[1:] if re.match(r"[A-Z][a-z]", p) else p for p in part.split("_")]
    return out


def snake(name):
    # a constructor in upper camel case is cut too
    if re.match(r"[A-Z]\w*[a-z]", name):
        name = name[0].lower() + name[1:]
    return "_".join(w if len(w) == 1 else w[0].lower() + w[1:] for w in words(name))


def camel(name):
    return "".join(w[:1].upper() + w[1:] for w in re.split(r"[-_·]", name))


def joined(name, cited):
    """A lemma's name: '-' between two names that its statement cites, '_' elsewhere."""
    parts, at, out = words(name), 0, []
    while at < len(parts):
        end = next((e for e in range(len(parts), at, -1) if tuple(parts[at:e]) in cited), None)
        out.append(("_".join(parts[at : end or at + 1]), end is not None or re.match(r"[A-Z]\w*[a-z]", parts[at]) is not None))
        at = end or at + 1
    text = out[0][0]
    for (_, a), (w, b) in zip(out, out[1:]):
        text += ("-" if a and b else "_") + w
    return text


def bad(w):
    """Spelled as no function, field or lemma of the kit is: camel case, a dash, a middle dot."""
    if "" in re.split(r"[-_·]", w.lstrip("#")) or w.startswith("Need-") or "--" in w or "◌" in w or ":" in w:
        return False
    if not re.search(r"[^\W\d_]", w):
        return False
    return bool(re.match(r"#?[a-z]", w) and re.search("[A-Z]", w)) or "-" in w or "·" in w


class Repo:
    def __init__(self, top="."):
        self.top, self.code, self.text, self.decls = top, {}, {}, {}
        self.mods = {}
        for d, ds, fs in os.walk(f"{top}/crates"):
            ds[:] = sorted(x for x in ds if x not in ("out", ".git"))
            for f in sorted(fs):
                p = os.path.relpath(os.path.join(d, f), top)
                if f.endswith(".antt"):
                    self.text[p] = read(os.path.join(top, p))
                    self.code[p] = blank(self.text[p])
                    self.decls[p] = declarations(self.code[p])
                    m = re.match(r"crates/(\w+)/(specs|proofs)/(.*)\.antt$", p)
                    if m:
                        q = re.sub(r"(^|/)Lib$", "", m[3])
                        self.mods[".".join(["Rattle", m[1], m[2]] + ([q.replace("/", ".")] if q else []))] = p
                elif f.endswith((".rt", ".edit")):
                    self.text[p] = read(os.path.join(top, p))
        self.kinds = collections.defaultdict(set)
        self.at = collections.defaultdict(list)
        for p, ds in self.decls.items():
            for n, k, i, s, l in ds:
                self.kinds[n].add(k)
                self.at[n].append((p, l + 1, k, i, s))
        self.rust = set()
        for p, t in self.text.items():
            if p.endswith(".rt"):
                for kind, part in rt_parts(t):
                    if kind == "rust":
                        self.rust.update(re.findall(r"\w+", part))
        self.files = {p: Scope(self, p) for p in self.code}
        self.kit = {w for sc in self.files.values() for w in sc.outside}
        self.make()

    def cited(self, name):
        out = set()
        for p, l, k, i, s in self.at[name]:
            if k != "fn" or "/specs/" in p:
                continue
            body = s.split(" :", 1)[-1]
            bound = set()
            for m in re.finditer(r"[({]([^(){}:→]*) :", body):
                bound.update(m[1].split())
            for m in re.finditer(r"λ ([^.]*)\.", body):
                bound.update(WORD.findall(m[1]))
            for m in WORD.finditer(body):
                w, dotted = m[0], body[m.start() - 1 : m.start()] == "."
                if w == name or not re.search(r"[^\W\d_]", w) or w in ("Type", "in"):
                    continue
                if dotted and not w.isdigit() or w not in bound and (self.kinds.get(w) or w in self.files[p].outside):
                    out.add(tuple(words(w)))
        return out

    def make(self):
        self.map, self.lemmas = {}, {}
        for w, kinds in self.kinds.items():
            new = self.new(w, kinds)
            if new != w:
                self.map[w] = new
        for p, sc in self.files.items():
            for w in sc.bare:
                if w not in self.kinds and w not in self.map and bad(w) and w not in STAY | sc.outside | sc.goals:
                    self.map[w] = OTHER.get(w) or ("#" if w[0] == "#" else "") + snake(w.lstrip("#"))
        # the names that specs/ has in the end
        self.specs = {self.map.get(w, w) for w, at in self.at.items() if any("/specs/" in a[0] for a in at)}
        # a lemma that would have its function's name gets _lem
        for kind, ws, n, p in collisions(self):
            if kind != "scope" or len({self.files[p].turn(w) for w in ws}) == len(ws):
                continue
            may = [w for w in ws if self.kinds.get(w) == {"fn"} and not any("/specs/" in at[0] for at in self.at[w])]
            may.sort(key=lambda w: (not bad(w) or "-" not in w, "_" not in w, w))
            if may:
                self.map[may[0]] = self.lemmas[may[0]] = n + "_lem"

    def cited_as(self, w):
        """A name in a text: what the map says, or what port.py made of it."""
        if w in self.map:
            return self.map[w]
        n = snake(w)
        return n if bad(w) and w not in self.kinds and w not in self.kit and (n in self.kinds or n in self.kit or n in self.specs) else w

    def new(self, w, kinds):
        if w in OTHER:
            return OTHER[w]
        if w in STAY or w in self.rust or "◌" in w or w in KEYWORDS or not re.search(r"[^\W\d_]", w):
            return w
        if "" in re.split(r"[-_·]", w) or re.match(r"_|#", w):
            return w
        if all(w in self.files[p].goals for p, *_ in self.at[w]):
            return w
        if "type" in kinds:
            return camel(w) if re.match(r"[a-z]", w) or "-" in w or "·" in w else w
        if "fn" in kinds:
            if re.match(r"[A-Z]", w) and "-" not in w or not re.search(r"[A-Za-z]", w):
                return w
            if re.search(r"[-_]spec'*$", w) and all(p.endswith("/Proof.antt") for p, *_ in self.at[w]):
                return snake(w)
            return joined(w, self.cited(w)) if bad(w) or "_" in w else w
        return snake(w) if bad(w) or re.match(r"[A-Z]", w) else w


class Scope:
    """What the words of an antt file mean: imports, module aliases, and the goals that Rattle names."""

    def __init__(self, repo, p):
        self.repo, self.p = repo, p
        code = repo.code[p]
        self.outside, self.alias, self.opened = set(), {}, set()
        for m in USE.finditer(code):
            self.use(m)
        self.body = USE.sub(lambda m: re.sub(r"[^\n]", " ", m[0]), code)
        for m in OPEN.finditer(self.body):
            self.opened.update(x for x in WORD.findall(m[2]) if x != "as")
        self.goals = {w[5:] for w in re.findall(rf"\bNeed-{W}", code)} | {
            m[1] for m in re.finditer(rf"\b(?:tie|goal|Goals)\.({W})", code)
        }
        self.bare = {m[0] for m in CHAIN.finditer(self.body) if m[0][0] != "." and "." not in m[0]}
        self.bare |= {m[0].split(".")[0] for m in CHAIN.finditer(self.body) if m[0][0] != "."}
        self.bare |= {a for a in self.alias}
        self.bare |= set(getattr(self, "renamed", ()))

    def use(self, m):
        path, items, alias = m[2], m[4], m[6]
        if items is None:
            self.alias[alias or path.split(".")[-1]] = path
            return
        own = path in self.repo.mods
        for it in items.split(","):
            ws = it.split()
            if not ws:
                continue
            if len(ws) == 3:
                self.__dict__.setdefault("renamed", set()).add(ws[2])
            elif not own:
                self.outside.add(ws[0].split(".")[-1])

    def turn(self, w):
        if (self.p, w) in OTHER_IN:
            return OTHER_IN[self.p, w]
        if w in self.outside or w in self.goals:
            return w
        return self.repo.map.get(w, w)

    def chain(self, m):
        t = m[0]
        parts = t.split(".")
        if t[0] == ".":
            return "." + ".".join(self.field(x) for x in parts[1:])
        if len(parts) == 1:
            s, e = m.span()
            if m.string[e : e + 3] == " = " and "field" in self.repo.kinds.get(t, ()) and m.string[:s].rstrip()[-1:] in "{;":
                return self.repo.map.get(t, t)
            return self.turn(t)
        head = parts[0]
        if head == "Rattle":
            for e in range(len(parts) - 1, 2, -1):
                path = ".".join(parts[:e])
                if path in self.repo.mods:
                    return path + "." + ".".join([self.repo.map.get(parts[e], parts[e])] + [self.field(x) for x in parts[e + 1 :]])
            return t
        if head in self.alias:
            path, at = self.alias[head], 1
            while ".".join([path, *parts[1 : at + 1]]) in self.repo.mods and at < len(parts) - 1:
                at += 1
            full = ".".join([path, *parts[1:at]])
            first = self.turn(head)
            if full in self.repo.mods:
                rest = [*parts[1:at], self.repo.map.get(parts[at], parts[at])] + [self.field(x) for x in parts[at + 1 :]]
            else:
                rest = parts[1:2] + [self.field(x) for x in parts[2:]]
            return ".".join([first, *rest])
        return ".".join([self.turn(head), *(self.field(x) for x in parts[1:])])

    def field(self, w):
        return self.repo.map.get(w, w) if self.repo.kinds.get(w, set()) & {"field", "ctor", "fn"} and "field" in self.repo.kinds[w] else w

    def use_line(self, m):
        path, items, alias = m[2], m[4], m[6]
        if items is None:
            return m[0] if alias is None else f"use {path} as {self.turn(alias)}"
        own = path in self.repo.mods

        def item(i):
            ws = i[0].split()
            a = ws[0]
            if own:
                a = ".".join(self.repo.map.get(x, x) for x in a.split("."))
            b = self.repo.map.get(ws[2], ws[2]) if len(ws) == 3 else None
            return a if b is None or b == a else f"{a} as {b}"

        return f"use {path}.{{" + re.sub(r"[^\s,]+(?: as [^\s,]+)?", item, items) + "}" + (f" as {alias}" if alias else "")

    def code_text(self, t):
        out, at = [], 0
        for m in USE.finditer(t):
            out += [CHAIN.sub(self.chain, t[at : m.start()]), self.use_line(m)]
            at = m.end()
        return "".join(out) + CHAIN.sub(self.chain, t[at:])


BLOCK = re.compile(r"(?<![^\s(){};,])(?:where|do|let|mutual) +(?=\S)")


def realigned(old, new):
    """The new text, in which the later lines of a block that begins behind a longer name stand under its first item again."""
    was, now, lines = blank(old).split("\n"), blank(new).split("\n"), new.split("\n")
    by = [0] * len(lines)
    for row, (a, b) in enumerate(zip(was, now)):
        for x, y in zip(BLOCK.finditer(a), BLOCK.finditer(b)) if a != b else ():
            below = row + 1
            while x.end() != y.end() and below < len(was):
                if was[below].strip() and was[below][: x.end()].strip():
                    break
                by[below] += (y.end() - x.end()) * bool(was[below].strip())
                below += 1
    return "\n".join(" " * n + l if n >= 0 else l[-n:] for n, l in zip(by, lines))


def closing(text, at):
    depth = 0
    for m in re.compile(QUIET.pattern + r"|[{}]", re.S).finditer(text, at):
        depth += (m[0] == "{") - (m[0] == "}")
        if depth < 0:
            return m.start()
    return None


def rt_parts(text):
    """The parts of Rust-like text: (kind, text), kind 'antt', 'comment', 'quoted' or 'rust'."""
    out, at = [], 0
    while at < len(text):
        m = RUST.match(text, at)
        word, end = m[0], m.end()
        clause = CLAUSE.match(text, at) if word in ("requires", "ensures", "ghost", "decreases", "invariant") else None
        use = GHOST_USE.match(text, at) if word == "ghost" else None
        if clause and closing(text, clause.end()):
            end = closing(text, clause.end())
            out += [("rust", clause[0]), ("antt", text[clause.end() : end])]
        elif use:
            end = use.end()
            out.append(("antt", use[0]))
        else:
            out.append(("comment" if word[:2] in ("//", "/*") else "quoted" if word[-1:] == '"' else "rust", word))
        at = end
    return out


class RtScope(Scope):
    def __init__(self, repo, p, parts):
        self.repo, self.p = repo, p
        self.outside, self.alias, self.opened, self.goals = set(), {}, set(), set()
        code = "\n".join(t for k, t in parts if k == "antt")
        for m in USE.finditer(code):
            self.use(m)


CAMEL = re.compile(r"(?<![\w'-])[a-z][a-z0-9]*[A-Z]\w*'*(?![\w(-])")


def prose(repo, text):
    """A comment's words: a name in camel case anywhere, one with a dash in a code span."""
    plain = lambda t: CAMEL.sub(lambda m: repo.cited_as(m[0]), t)

    def dashed(t):
        return WORD.sub(lambda m: part(m[0]), t)

    def part(w):
        m = re.match(r"^([`*\[]*)(.*?)([`*\]:!]*)$", w) if w.strip("`") in repo.map else re.match(r"^([`*\[]*)(.*?)([`*\]:!?]*)$", w)
        c = m[2]
        if c in repo.map and (bad(c) or re.search(r"[-·]", repo.map[c])):
            return m[1] + repo.map[c] + m[3]
        return m[1] + (repo.cited_as(c) if "-" in c and bad(c) else plain(c)) + m[3]

    # a word that a row of a table in a comment begins with
    text = re.sub(r"^--(\s{3,})([a-z]\S*-\S+)(?=\s{2})", lambda m: "--" + m[1] + (repo.map.get(m[2], m[2]) if bad(m[2]) else m[2]), text)
    out, at = [], 0
    for m in SPAN.finditer(text):
        out += [plain(text[at : m.start()]), dashed(m[0])]
        at = m.end()
    return "".join(out) + plain(text[at:])


def rewrite(repo, p, text):
    if p.endswith(".antt"):
        sc, out, at = repo.files[p], [], 0
        for m in QUIET.finditer(text):
            out += [sc.code_text(text[at : m.start()]), m[0] if m[0][0] == '"' else prose(repo, m[0])]
            at = m.end()
        out.append(sc.code_text(text[at:]))
        return realigned(text, "".join(out))
    if p.endswith(".rt"):
        parts = rt_parts(text)
        sc = RtScope(repo, p, parts)
        turn = {"antt": lambda t: antt_with_comments(repo, sc, t), "comment": lambda t: prose(repo, t)}
        return "".join(turn.get(k, str)(t) for k, t in parts)
    if p.endswith(".edit"):
        return edit(repo, text, p.split("/must-fail/")[0])
    if p == "compare/planted/definition.txt":
        return edit(repo, text, "crates/model/specs")
    if p == "tools/walk/uses.txt":
        return WORD.sub(lambda m: repo.map.get(m[0], m[0]) if bad(m[0]) else m[0], text)
    if p.endswith(".md"):
        out, at = [], 0
        for m in FENCE.finditer(text):
            out += [prose(repo, text[at : m.start()]), m[0] if re.match(r" *`+(sh|bash|console|c|rust|python)\b", m[0]) else prose(repo, m[0])]
            at = m.end()
        return "".join(out) + prose(repo, text[at:])
    if p.endswith(".py"):
        return PYTHON.sub(lambda m: python(repo, m[0], p.startswith("tools/")), text)
    return text


def antt_with_comments(repo, sc, t):
    out, at = [], 0
    for m in QUIET.finditer(t):
        out += [sc.code_text(t[at : m.start()]), m[0] if m[0][0] == '"' else prose(repo, m[0])]
        at = m.end()
    return "".join(out) + sc.code_text(t[at:])


TIGHT = (
    lambda t: t,
    # a projection is written tight
    lambda t: re.sub(r"(?<=[\w')]) \.(?=[\w'])", ".", t),
    lambda t: re.sub(r"(?<![\w.'])\(([\w']+(?:\.[\w']+)+)\)", r"\1", re.sub(r"(?<=[\w')]) \.(?=[\w'])", ".", t)),
)


def edit(repo, text, folder):
    """The text of edits, but for the path of each: its names, and its projections written tight where the file then has the old text."""
    flat = lambda t: re.sub(r"\s+", " ", t).strip()
    out = []
    for block in re.split(r"(?m)^(?=file:)", text):
        lines, key = [], None
        for line in block.split("\n"):
            m = re.match(r"(\w+):(?: |$)", line)
            key = m[1] if m else key if line.startswith(" ") else None
            if key in ("old", "new"):
                line = WORD.sub(lambda m: repo.cited_as(m[0]) if bad(m[0]) else m[0], line).replace("′", "'")
            elif key != "file":
                line = prose(repo, line)
            lines.append((key, line))
        of = lambda k: "\n".join(re.sub(r"^\w+: ?", "", l) for kk, l in lines if kk == k)
        target = repo.now.get(os.path.join(folder, of("file").strip()))
        turn = TIGHT[0]
        if target and of("old"):
            turn = next((t for t in TIGHT if flat(t(of("old"))) in target), turn)
        out.append("\n".join(turn(l) if k in ("old", "new") else l for k, l in lines))
    return "".join(out)


def tool_word(repo, w):
    m = re.match(r"^(['`]*)(.*?)(['`:]*)$", w)
    for a, c, b in ((m[1], m[2], m[3]), (m[1], m[2] + m[3].rstrip("`:"), m[3].lstrip("'"))):
        if bad(c) and c in repo.map:
            return a + repo.map[c] + b
    return w


def python(repo, t, writes_proofs):
    """A string or a comment of Python: a name in camel case anywhere, one with a dash where it is the whole string and a name of specs/, or
    anywhere in a string of a tool that writes proofs."""
    if writes_proofs and t[0] != "#":
        t = re.sub(rf"{W}", lambda m: tool_word(repo, m[0]), t)
    m = re.fullmatch(r"""(["'])([a-z]+(?:-[a-z]+)+)\1""", t)
    if m:
        n = repo.cited_as(m[2])
        return m[1] + (n if n in repo.specs else m[2]) + m[1]
    return CAMEL.sub(lambda m: repo.cited_as(m[0]) if repo.kinds.get(m[0]) or repo.kinds.get(snake(m[0])) else m[0], t)


def others(top):
    for d, ds, fs in os.walk(top):
        ds[:] = sorted(x for x in ds if x not in (".git", "out", "crates", "reference", "oracle"))
        for f in sorted(fs):
            p = os.path.relpath(os.path.join(d, f), top)
            # this file has the old names
            if f == os.path.basename(__file__):
                continue
            if f.endswith((".md", ".py")) or p in ("compare/planted/definition.txt", "tools/walk/uses.txt"):
                yield p


# ---- collisions
LABEL = re.compile(rf"(?<=[{{;])(\s*)({W})(?= = )")
BRACED = re.compile(r"\{(?![^{}]*:)")


def groups(code, starts):
    """The top-level blocks of a text: each line that stands at the margin and declares begins one."""
    lines, out = code.split("\n"), [[]]
    for n, l in enumerate(lines):
        if n in starts:
            out.append([])
        out[-1].append(l)
    return ["\n".join(it) for it in out]


def collisions(repo):
    """(kind, old names, new name, file): where two old names that mean different things would be one."""
    out = []
    for w, n in sorted(repo.map.items()):
        if n in KEYWORDS:
            out.append(("keyword", (w,), n, ""))
    for p, sc in sorted(repo.files.items()):
        ds = repo.decls[p]
        top = {n for n, k, i, *_ in ds if k != "field" and (i == 0 or k == "ctor")} | sc.outside
        top |= {m[6] or m[2].split(".")[-1] for m in USE.finditer(repo.code[p]) if m[4] is None}
        for m in USE.finditer(repo.code[p]):
            if m[4] is not None:
                top |= {i.split()[-1].split(".")[-1] for i in m[4].split(",") if i.split()}
        code = LABEL.sub(lambda m: m[1] + " " * len(m[2]), sc.body)
        lines = code.split("\n")
        for n, k, i, s, l in ds:
            if k == "field":
                lines[l] = lines[l].replace(" " + n + " ", " " * (len(n) + 2), 1)
        code = "\n".join(lines)
        bare = lambda t: {m[0].split(".")[0] for m in CHAIN.finditer(t) if m[0][0] != "."}
        seen = set()
        for names in [top] + [bare(g) for g in groups(code, {l for n, k, i, s, l in ds if i == 0})]:
            by = collections.defaultdict(set)
            for w in names:
                by[sc.turn(w)].add(w)
            for n, ws in sorted(by.items()):
                if len(ws) > 1 and (n, tuple(sorted(ws))) not in seen:
                    seen.add((n, tuple(sorted(ws))))
                    out.append(("scope", tuple(sorted(ws)), n, p))
        # the fields of one record
        of = {}
        for n, k, i, s, l in ds:
            if k == "type":
                of = {}
            if k == "field":
                m = repo.map.get(n, n)
                if of.setdefault(m, n) != n:
                    out.append(("record", (of[m], n), m, p))
    # contracts: a word that would be spelled like a parameter, or like another word of the file
    for p, t in sorted(repo.text.items()):
        if not p.endswith(".rt"):
            continue
        parts, before, all_words = rt_parts(t), "", set()
        sc = RtScope(repo, p, parts)
        for k, x in parts:
            if k == "rust":
                before += x
            if k != "antt":
                continue
            ws = {m[0].split(".")[0] for m in CHAIN.finditer(blank(x)) if m[0][0] != "."}
            all_words |= ws
            head = max(before.rfind("fn "), before.rfind("struct "))
            if head >= 0 and not x.startswith("ghost"):
                names = set(re.findall(r"(\w+)\s*:", before[head:]))
                out += [("parameter", (w,), sc.turn(w), p) for w in sorted(ws) if sc.turn(w) != w and sc.turn(w) in names]
        by = collections.defaultdict(set)
        for w in all_words:
            by[sc.turn(w)].add(w)
        out += [("contracts", tuple(sorted(ws)), n, p) for n, ws in sorted(by.items()) if len(ws) > 1]
    return out


def main(args):
    repo = Repo(".")
    if "--list" in args:
        for w in sorted(repo.map):
            at = repo.at.get(w)
            print(f"{w}\t{repo.map[w]}\t{','.join(sorted(repo.kinds.get(w, {'bound'})))}\t{at[0][0] + ':' + str(at[0][1]) if at else ''}")
        return 0
    if "--back-check" in args:
        found = collisions(repo)
        for kind, ws, n, p in found:
            print(kind, n, " ".join(f"{w}:{'+'.join(sorted(repo.kinds.get(w, {'bound'})))}" for w in ws), p, sep="\t")
        print(f"names: {len(repo.map)} change; collisions: {len(found)}")
        return bool(found)
    dry = "--dry" in args
    n = collections.Counter()
    repo.now = {}
    for p, t in sorted(repo.text.items(), key=lambda it: (it[0].endswith(".edit"), it[0])):
        new = rewrite(repo, p, t)
        repo.now[p] = re.sub(r"\s+", " ", new)
        if new != t:
            n[p.rsplit(".", 1)[-1]] += 1
            if not dry:
                with open(p, "w", encoding="utf-8", newline="") as f:
                    f.write(new)
    for p in others("."):
        t = read(p)
        new = rewrite(repo, p, t)
        if new != t:
            n[p.rsplit(".", 1)[-1]] += 1
            for k, (a, b) in enumerate(zip(t.split("\n"), new.split("\n"))):
                if a != b:
                    x = [(u, v) for u, v in zip(re.findall(r"[\w'-]+", a), re.findall(r"[\w'-]+", b)) if u != v]
                    print(f"look: {p}:{k + 1}: " + ", ".join(f"{u} -> {v}" for u, v in x))
            if not dry:
                with open(p, "w", encoding="utf-8", newline="") as f:
                    f.write(new)
    print(f"respell: {len(repo.map)} names; files changed: " + ", ".join(f"{k} {v}" for k, v in sorted(n.items())))
    return 0


if __name__ == "__main__":
    sys.exit(main(sys.argv[1:]))
