"""`python3 -m compare.contracts`: every call under the crate `picker`, and every export, requires nothing and ensures something, and each
call is exported. Status 1 and a line for each that does not."""
import pathlib
import re
import sys

CRATES = pathlib.Path(__file__).resolve().parent.parent / "crates"
FUNCTION = re.compile(r'^(pub )?(extern "C" )?fn (\w+)\(.*?^\{', re.M | re.S)


def functions(crate):
    """Each function of a crate that no type has: its name, and its text up to the body."""
    texts = (path.read_text(encoding="utf-8") for path in sorted((CRATES / crate / "src").rglob("*.rt")))
    return {found[3]: found[0] for text in texts for found in FUNCTION.finditer(text)}


def public_calls():
    """The calls that `picker` passes on, as crate and name; what it passes on besides are types, which start with a capital."""
    face = (CRATES / "picker" / "src" / "lib.rt").read_text(encoding="utf-8")
    passed_on = re.findall(r"^pub use (\w+)::(?:(\w+)|\{([^}]*)\});$", face, re.M)
    return [(crate, name) for crate, one, more in passed_on for name in re.findall(r"\w+", one or more) if name[0].islower()]


def exports():
    crates = sorted(path.name for path in CRATES.glob("export_*"))
    return [(crate, name) for crate in crates for name, head in functions(crate).items() if 'extern "C"' in head]


def fault(crate, name):
    """What is wrong with the contract of a function, or nothing."""
    head = functions(crate).get(name)
    if head is None:
        return "is not there"
    if re.search(r"^\s*requires\b", head, re.M):
        return "requires something of its caller"
    return None if re.search(r"^\s*ensures\b", head, re.M) else "ensures nothing"


def main():
    calls, passed_on = public_calls(), exports()
    told = [(f"{crate}::{name}", fault(crate, name)) for crate, name in calls + passed_on]
    wrong = [f"{name} {why}" for name, why in told if why]
    if not calls or not passed_on:
        wrong.append("there are no calls, or no exports")
    apart = {f"pp_{name}" for _, name in calls} ^ {name for _, name in passed_on}
    wrong += [f"{name} is exported and no public call, or the other way round" for name in sorted(apart)]
    for line in wrong:
        print(f"contracts: {line}", file=sys.stderr)
    if not wrong:
        print(f"{len(calls)} public calls and {len(passed_on)} exports require nothing")
    return 1 if wrong else 0


if __name__ == "__main__":
    sys.exit(main())
