"""`python3 -m compare.map`: docs/MAP.md holds a row for each function of the three Rust files, and no name in it is stale. A row's line is
the function's, each definition, function and law that it names is where it says, and what is said to come is not there yet. The reading
order at the head of the model's specs names each of their files once."""
import glob
import os
import re
import sys
from collections import namedtuple

TOP = os.path.dirname(os.path.dirname(os.path.abspath(__file__)))
MAP = os.path.join("docs", "MAP.md")
SPECS = os.path.join("crates", "model", "specs")
FILES = {
    "types.rs": "crates/bitdaemon-common/src/types.rs",
    "bitfield.rs": "crates/bitdaemon-common/src/bitfield.rs",
    "piece_picker.rs": "crates/bitdaemon-session/src/piece_picker.rs",
}
COLUMNS = ["Rust", "line", "definition", "code", "proof"]
TO_COME, LEFT_OUT, IN_PART, CONTRACT, NONE = "to come", "left out: ", "in part: ", "contract", "—"

# `at` is the row's line in the map; the other fields are its cells, `rust` without its quotes
Row = namedtuple("Row", "at file rust line definition code proof")


class Unreadable(Exception):
    """A file that is missing, or a map that is no map."""


def lines_of(path):
    try:
        with open(path, encoding="utf-8") as f:
            return f.read().split("\n")
    except OSError as why:
        raise Unreadable(f"{path}: {why.strerror}") from why


# ---- the Rust
def owner(header):
    """The type of an `impl` or `trait` line, with the trait of a trait's impl: `T`, or `<T as Trait>`."""
    kind, rest = re.match(r"(?:pub )?(impl|trait)\b(.*?)\s*\{?\}?$", header).groups()
    names = [re.sub(r"<'_>|'\w+ ", "", re.sub(r"^(?:\w+::)+", "", part.strip())) for part in rest.split(" for ")]
    return names[0] if kind == "trait" or len(names) == 1 else f"<{names[1]} as {names[0]}>"


def rust_functions(lines):
    """Each function outside of tests, as (name, line)."""
    found, inside, tests = [], None, False
    for at, line in enumerate(lines, 1):
        if line.startswith("}"):
            inside, tests = None, False
        elif line.startswith("#[cfg(test)]"):
            tests = True
        elif re.match(r"(?:pub )?(?:impl|trait)\b", line):
            inside = owner(line)
        function = re.match(r"\s*(?:pub(?:\(\w+\))? )?(?:const |unsafe |async )*fn (\w+)", line)
        if function and not tests:
            found.append((f"{inside}::{function[1]}" if inside else function[1], at))
    return found


def rust_source():
    folder = os.environ.get("PICKER_RUST_SRC") or os.path.join(TOP, "..", "shared", "docs", "src")
    if not os.path.isdir(folder):
        raise Unreadable(f"the Rust is not in {folder}: set PICKER_RUST_SRC to its folder")
    return {name: rust_functions(lines_of(os.path.join(folder, path))) for name, path in FILES.items()}


# ---- the map
def cells_of(line):
    return [cell.strip() for cell in line.strip().strip("|").split("|")]


def map_rows(lines):
    rows, file = [], None
    for at, line in enumerate(lines, 1):
        if line.startswith("## "):
            file = line[3:].strip() if line[3:].strip() in FILES else None
        if not file or not line.startswith("|") or cells_of(line) == COLUMNS or set(line) <= set("|- "):
            continue
        cells = cells_of(line)
        if len(cells) != len(COLUMNS) or not re.fullmatch(r"`[^`]+`", cells[0]) or not cells[1].isdigit():
            raise Unreadable(f"{MAP}:{at}: no row of the map: {line[:80]}")
        rows.append(Row(at, file, cells[0].strip("`"), int(cells[1]), *cells[2:]))
    return rows


# ---- definitions and laws
DEFINED = re.compile(
    r"(?:\s*(?:(?:unfoldable|abbrev) )?pub |(?:(?:unfoldable|abbrev) )?)(?:(?:record|data) (\S+)|(\S+)(?: \{[^}]*\})?(?= ?:))"
)


def paragraphs(lines):
    """The definitions of an antt file, by name: public ones, and others that stand in no module. Each is a paragraph, which starts with
    comments or with the modules that it stands in."""
    found = {}
    for text in re.split(r"\n\s*\n", "\n".join(lines)):
        body = [x for x in text.split("\n") if not re.match(r"\s*--|\s*module\b.*\bwhere$", x)]
        head = DEFINED.match(body[0]) if body else None
        if head:
            found[head[1] or head[2]] = body
    return found


def antt_problem(kind, reference):
    """What is wrong with `path.name`, `crate:path.name` or either with a case of it, or nothing."""
    parts = re.fullmatch(r"(?:(\w+):)?([\w/]+)\.([^\s.]+)(?: (\S+))?", reference)
    if not parts:
        return f"`{reference}` is no file and name"
    crate, path, name, case = parts.groups()
    file = f"crates/{crate or 'model'}/{kind}/{path}.antt"
    if not os.path.isfile(os.path.join(TOP, file)):
        return f"{file} is not there (`{reference}`)"
    found = paragraphs(lines_of(os.path.join(TOP, file)))
    if name not in found:
        return f"{file} has no `{name}`"
    if case and case not in re.findall(r"[^\s(){};,.]+", "\n".join(found[name])):
        return f"{file}: `{name}` has no `{case}`"
    return None


def definition_named(name):
    """The file of the model's specs that defines the name, or nothing."""
    for path in sorted(glob.glob(os.path.join(TOP, SPECS, "**", "*.antt"), recursive=True)):
        if name in paragraphs(lines_of(path)):
            return os.path.relpath(path, TOP)
    return None


# ---- code
def code_functions(crate):
    """The functions of a crate, `name` or `Type::name`, each with whether it has a contract."""
    found = {}
    for path in sorted(glob.glob(os.path.join(TOP, "crates", crate, "src", "*.rt"))):
        inside, name = None, None
        for line in lines_of(path):
            if line.startswith("}"):
                inside = None
            elif line.startswith("impl "):
                inside = line.split()[1]
            function = re.match(r"\s*(?:pub )?(?:extern \"C\" )?fn (\w+)", line)
            if function:
                name = f"{inside}::{function[1]}" if inside else function[1]
                found[name] = False
            elif line.strip() == "{":
                name = None
            elif name and line.strip().startswith("ensures"):
                found[name] = True
    return found


def code_problem(reference, contract):
    crate, _, name = reference.partition("::")
    functions = code_functions(crate)
    if not functions:
        return f"crates/{crate}/src is not there or has no function (`{reference}`)"
    if name not in functions:
        return f"crates/{crate}/src has no `{name}`"
    if contract and not functions[name]:
        return f"crates/{crate}/src: `{name}` has no contract"
    return None


def code_named(name):
    """A crate whose own code has a function of that name, or nothing; exports for comparison alone do not count."""
    for folder in sorted(glob.glob(os.path.join(TOP, "crates", "*"))):
        crate = os.path.basename(folder)
        if not crate.endswith("_c") and not crate.startswith("link_") and name in code_functions(crate):
            return crate
    return None


# ---- a row
def references(cell):
    return re.findall(r"`([^`]+)`", cell)


def fits(cell, words):
    """References parted by commas, the fixed word `contract` among them where it may stand, or one of the other words alone."""
    items = cell.split(", ")
    named = [item for item in items if re.fullmatch(r"`[^`]+`", item) or item == CONTRACT in words]
    return len(named) == len(items) or cell in words


def shape_problems(row):
    """What is left out has a reason, and neither code nor proof; code may do a function in part."""
    left = row.definition.startswith(LEFT_OUT.strip())
    part = row.code.startswith(IN_PART)
    if left and not re.search(r"\w", row.definition[len(LEFT_OUT):]):
        yield "left out without a reason"
    for column, cell, words in (
        ("definition", row.definition, [row.definition] if left else [TO_COME, CONTRACT]),
        ("code", row.code.removeprefix(IN_PART), [NONE] if left else [] if part else [TO_COME]),
        ("proof", row.proof, [NONE] if left else [TO_COME, CONTRACT]),
    ):
        if not fits(cell, words):
            yield f"{column}: {' nor '.join(['neither names', *words])}: {cell[:80]}"


def name_problems(row):
    contract = CONTRACT in (row.definition, *row.proof.split(", "))
    problems = [antt_problem("specs", name) for name in references(row.definition)]
    problems += [code_problem(name, contract) for name in references(row.code)]
    problems += [antt_problem("proofs", name) for name in references(row.proof)]
    if contract and not references(row.code):
        problems.append("a contract without code")
    return [problem for problem in problems if problem]


def come_problems(row):
    """What is said to come is not there yet, under the Rust's name."""
    name = row.rust.split("::")[-1]
    camel = re.sub(r"_(\w)", lambda x: x[1].upper(), name)
    if row.definition == TO_COME and definition_named(camel):
        yield f"definition to come, but {definition_named(camel)} has `{camel}`"
    if row.code == TO_COME and code_named(name):
        yield f"code to come, but crate {code_named(name)} has `{name}`"


def row_problems(row):
    return [*shape_problems(row), *name_problems(row), *come_problems(row)]


# ---- the rows and the Rust
def coverage_problems(rows, rust):
    """Messages for rows that are not of the Rust, or stand at another line, and for functions without a row."""
    for file, functions in rust.items():
        lines = dict(functions)
        here = [row for row in rows if row.file == file]
        for row in here:
            if row.rust not in lines:
                yield f"{MAP}:{row.at}: {row.rust}: {file} has no such function"
            elif row.line != lines[row.rust]:
                yield f"{MAP}:{row.at}: {row.rust}: at line {lines[row.rust]} of {file}, not {row.line}"
        names = [row.rust for row in here]
        for name, line in functions:
            if names.count(name) != 1:
                yield f"{MAP}: {name}, line {line} of {file}: {names.count(name)} rows, not 1"


# ---- the reading order
def order_problems():
    """The order names each file of the specs once, and no other. A file in small letters only lists its folder."""
    head = os.path.join(SPECS, "Lib.antt")
    order = [entry[1] for entry in (re.match(r"--   ([\w/]+) +\S", line) for line in lines_of(os.path.join(TOP, head))) if entry]
    paths = glob.glob(os.path.join(TOP, SPECS, "**", "[A-Z]*.antt"), recursive=True)
    files = {os.path.relpath(path, os.path.join(TOP, SPECS))[: -len(".antt")].replace(os.sep, "/") for path in paths} - {"Lib"}
    for name in sorted(files | set(order)):
        if name not in files:
            yield f"{head}: the reading order has {name}, which is no file there"
        elif order.count(name) != 1:
            yield f"{head}: the reading order has {name} {order.count(name)} times, not once"


def figures(rows):
    left = sum(row.definition.startswith(LEFT_OUT) for row in rows)
    defined = sum(row.definition != TO_COME for row in rows) - left
    coded = sum(bool(references(row.code)) and not row.code.startswith(IN_PART) for row in rows)
    return f"{len(rows)} functions mapped: {defined} with definition, {coded} with code, {left} left out"


def main():
    try:
        rust = rust_source()
        rows = map_rows(lines_of(os.path.join(TOP, MAP)))
        problems = list(coverage_problems(rows, rust))
        problems += [f"{MAP}:{row.at}: {row.rust}: {problem}" for row in rows for problem in row_problems(row)]
        problems += order_problems()
    except Unreadable as why:
        print(f"map: {why}", file=sys.stderr)
        return 2
    for problem in problems:
        print(f"map: {problem}", file=sys.stderr)
    if problems:
        return 1
    print(figures(rows))
    return 0


if __name__ == "__main__":
    sys.exit(main())
