"""`python3 -m compare.makers`: docs/MAKERS.md tells what is there. It has every export of include/piece_picker.h and no other, each with
the refusals that the recorded answers of the Rust show; its programs in C and in Rust, compiled against build/lib as it says, print what
it says. Status 1 and a line for each fault."""
import pathlib
import re
import subprocess
import sys
import tempfile

from compare.recorded import answers_of, names_of, recorded

TOP = pathlib.Path(__file__).resolve().parent.parent
MAKERS, HEADER, LIB = TOP / "docs" / "MAKERS.md", TOP / "include" / "piece_picker.h", TOP / "build" / "lib"
RECORDED = {"image": "take_image", "read": "read_image"}  # where a script's call and its export differ in name
OF_MEMORY = {2, 3}  # refusals of every call on a picker, which the tables leave out
SAID = "6 pieces after 6 turns"
GCC = ["gcc", "-std=c11", "-O2", "-Wall", "-Wextra", "-Werror", "-I", str(TOP / "include")]
RUST = ["rustc", "--edition", "2021", "-O", "-L", str(LIB)]


# ---- exports and refusals
def numbers(words):
    return {int(word) for word in re.findall(r"\d+", words)}


def told(text):
    """The exports of the tables with the refusals in their last column, and the pick's."""
    rows = re.findall(r"^\| (`pp_\w+`.*?) \|.*\|([^|]*)\|$", text, re.M)
    found = {name: numbers(refusals) for names, refusals in rows for name in re.findall(r"`(pp_\w+)`", names)}
    pick = re.search(r"`pp_pick_pieces`:.*Refused with ([\d, ]+)\.", text)
    return found | {"pp_pick_pieces": numbers(pick[1]) if pick else set()}


def declared():
    return set(re.findall(r"^(?:pp_\w+|uint64_t) (pp_\w+)\(", HEADER.read_text(encoding="utf-8"), re.M))


def refused():
    """The refusals of each export by the recorded answers."""
    script, outcomes = recorded()
    met = {}
    for name, answer in zip(names_of(script), answers_of(outcomes)[0]):
        mine = met.setdefault("pp_" + RECORDED.get(name, name), set())
        mine |= numbers(answer.split(" ")[1]) if answer.startswith("refused ") else set()
    return met


def wrong_exports(text):
    said, there, met = told(text), declared(), refused()
    yield from (f"no export {name}" for name in sorted(said.keys() - there))
    yield from (f"{name} is not told" for name in sorted(there - said.keys()))
    for name, mine in sorted(met.items()):
        missing = mine - said.get(name, set()) - OF_MEMORY
        if missing:
            yield f"{name} is refused with {sorted(missing)}, which is not told"
    changed = [name for name in said if len(said[name]) > 1]
    yield from (f"{name} is never refused with {sorted(said[name] - met[name])}" for name in changed if said[name] - met.get(name, set()))


# ---- the programs
def program(text, language):
    return re.search(rf"```{language}\n(.*?)```", text, re.S)[1]


def run(*words):
    """What a command prints; raises CalledProcessError with what it complained of."""
    return subprocess.run(words, capture_output=True, text=True, check=True, cwd=TOP).stdout


def in_c(text, folder):
    (folder / "first.c").write_text(program(text, "c"), encoding="utf-8")
    run(*GCC, str(folder / "first.c"), str(LIB / "libpiece_picker.a"), "-o", str(folder / "first"))
    return run(str(folder / "first"))


def in_rust(text, folder):
    (folder / "first.rs").write_text(program(text, "rust"), encoding="utf-8")
    wrapper = TOP / "bindings" / "rust" / "src" / "lib.rs"
    run(*RUST, "--crate-type", "rlib", "--crate-name", "piece_picker", "--out-dir", str(folder), str(wrapper))
    run(*RUST, "--extern", f"piece_picker={folder}/libpiece_picker.rlib", str(folder / "first.rs"), "-o", str(folder / "first"))
    return run(str(folder / "first"))


def wrong_programs(text):
    if f"\n    {SAID}\n" not in text:
        yield f"it does not say: {SAID}"
    for name, made in (("C", in_c), ("Rust", in_rust)):
        with tempfile.TemporaryDirectory() as folder:
            try:
                printed = made(text, pathlib.Path(folder))
            except subprocess.CalledProcessError as why:
                printed = f"status {why.returncode}: {why.stderr.strip()[-2000:]}"
        if printed != SAID + "\n":
            yield f"its program in {name} prints {printed!r}"


def main():
    text = MAKERS.read_text(encoding="utf-8")
    wrong = [*wrong_exports(text), *wrong_programs(text)]
    for fault in wrong[:20]:
        print(f"makers: {fault}", file=sys.stderr)
    if not wrong:
        print(f"{len(told(text))} exports are told with their refusals, and both programs print what is said")
    return 1 if wrong else 0


if __name__ == "__main__":
    sys.exit(main())
