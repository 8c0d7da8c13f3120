"""`python3 -m compare.definition CALLS SEED`: the text of crates/model/specs itself, run by compare/antt.py, against the oracle.

The lists of calls are those of compare/lists.py. Compared for each call: the answer with its refusal, the draws used, the image after it;
after each change the picker must also be well-formed. The first mismatch ends it with status 1, with the list up to that call as
a script. `--script FILE` takes scripts instead, `--edges` the lists of compare/edges.py, `--recorded` the recorded calls and their
recorded outcomes, for which no oracle is needed, `--programs` the pick program's inputs of compare/programs.py. `--specs FOLDER` takes the
definitions from another folder.

The driver's and not the definition's, since the definition starts from a picker that stands:
- where no picker stands (`zero`, or nothing read or made before), the answers of docs/DECISIONS.md 4: 2 for words shorter than the
  head, else 3. So refusal 3 is the driver's alone;
- a negative number is lent as 2^63, as the code's contracts read it (`number_of`): out of range wherever a range is judged;
- `none` among the numbers of a question is printed as `0 0` for a peer, -1 for a bucket."""
import argparse
import multiprocessing
import re
import sys

from compare.antt import SPECS, Program, TooLong, value_of, with_deep_stack
from compare.antt_library import NONE, Stuck, some
from compare.antt_parse import AnttError
from compare.edges import edges
from compare.lists import lists
from compare.programs import PICKS
from compare.record import CALLS, OUTCOMES
from compare.run import Figures, Mismatch, ask_oracle, report
from compare.spelling import called, plain
from reference import questions
from reference.calls import STEPS
from reference.geometry import HEAD_WORDS
from reference.script import OPTIONS, PEER, SHAPES, WITH_DRAWS, Malformed, call_of, calls_of

# ---- the definition's names that values are built with or read by, in any spelling
STEP, IMAGE, WELL_FORMED, NEW, READ, TAKE = "step", "image", "well_formed", "new_picker", "read_picker", "take_image"
PROGRAM = "program"  # the pick program, from its bytes on
REFUSAL_NUMBER, REFUSAL_VALUES = "refusal_number", "refusal_values"
REFUSALS = "Rattle.types.specs.Refusal"  # the module of these two
ACTION, QUESTION = "Action", "Question"  # the types of what a call does, and of what it asks
MEMORY = ("words", "cells", "partials")  # fields of the lent memory, as the script has them
CALL = ("lent", "action")  # fields of a call, and of a step
ANSWER, AFTER = "answer", "after"
BLOCK = ("piece", "block")  # fields of a picked block
# arguments of constructors and fields of a pick's request, as the script has them
PARAMETERS = {
    **{name: name for name in ("piece", "block", "peer", "options", "draws", "free", "room", "place")},
    **{name: name for name in ("wanted", "run", "peers", "bits", "bytes", "suggestions")},
    "wish": "priority",
    "priority": "priority",
    "contiguous": "run",
}
PICK = ("options", "wanted", "run", "peers", "peer", "bits", "bytes", "suggestions")  # the script's order

# ---- which numbers of a question are a peer or none (of so many), and which a bucket
PEERS = {"get_downloader": (1, 0), "block_peer": (1, 0), "get_downloaders": (1, 0), "blocks_for_piece": (3, 2)}
BATCH = 2000
CHECKED_REFUSALS = (1, 2, 3, 4, 5, 6, 7, 8, 9, 11, 12)


class Words:
    """Lent words, each made when it is asked for."""

    def __init__(self, words):
        self.words = words

    def __len__(self):
        return self.words.many

    def __getitem__(self, i):
        if isinstance(i, slice):
            return [self.words[k] for k in range(*i.indices(len(self)))]
        if i >= len(self):
            raise IndexError(i)
        return self.words[i]


def natural(n):
    return n if n >= 0 else 2**63


def peer_value(peer):
    return NONE if peer is None else some(peer)


# ---- a call in the definition's terms
def script_values(call):
    """The arguments and options of a script's call, by name."""
    if call.name == "pick_pieces":
        out = dict(zip(PICK, call.args))
    else:
        out = {}
        numbers = ["place"] if call.name in questions.OF_PLACE else ["piece", "priority" if call.name == "set_piece_priority" else "block"]
        for kind, value in zip(SHAPES[call.name], call.args):
            out[{PEER: "peer", OPTIONS: "options"}.get(kind) or numbers.pop(0)] = value
    return {**out, "draws": Words(call.draws), "free": call.free, "room": call.room}


def lent(key, value):
    """A script's value as the definition takes it."""
    if key == "peer":
        return peer_value(value)
    if key == "suggestions":
        return [natural(n) for n in value]
    return value if key in ("draws", "bytes") else natural(value)


class Definition:
    """The definitions of a folder, led through calls."""

    def __init__(self, specs=SPECS):
        wanted = (STEP, IMAGE, WELL_FORMED, NEW, READ, TAKE, PROGRAM, REFUSAL_NUMBER, REFUSAL_VALUES)
        self.program = Program(specs, wanted, also=(REFUSALS,))
        self.actions = {c.name: c for c in self.program.data(ACTION)}
        self.wrapper = next(c for c in self.actions.values() if [p.type for p in c.params] == [QUESTION])
        self.asked = {}
        for c in self.program.data(QUESTION):
            kinds = [k for p in c.params for k in self.program.data(p.type)]
            self.asked.update({k.name: (c, k) for k in kinds} if kinds else {c.name: (c, None)})
        self.zero()

    def zero(self):
        self.picker, self.image = None, None

    def arguments(self, constructor, values, inner=None):
        out = []
        for p in constructor.params:
            fields = self.program.fields(p.type)
            if p.name in PARAMETERS:
                out.append(lent(PARAMETERS[p.name], values[PARAMETERS[p.name]]))
            elif inner is not None and p.type == inner.owner:
                out.append(value_of(inner))
            elif fields and all(f in PARAMETERS for f in fields):
                out.append(self.program.make(fields, {f: lent(PARAMETERS[f], values[PARAMETERS[f]]) for f in fields}))
            else:
                raise AnttError(f"no value for the argument {p.name or p.type} of {constructor.name}: see PARAMETERS")
        return value_of(constructor, *out)

    def action(self, call):
        """The call's constructor has its name, where a function has that too with `do` before it; a question's may end in ? or have `ask`
        before it."""
        values = script_values(call)
        name = called(self.actions, call.name, "do_" + call.name)
        if name is not None:
            return self.arguments(self.actions[name], values)
        name = called(self.asked, call.name, call.name + "?", "ask_" + call.name)
        if name is None:
            raise AnttError(f"no constructor of {ACTION} or {QUESTION} for {call.name}")
        asked, kind = self.asked[name]
        return value_of(self.wrapper, self.arguments(asked, values, kind))

    # ---- answers in the script's words
    def refused(self, refusal):
        """A case of the declared enum, as its number and what is given with it."""
        values = self.program.call(REFUSAL_VALUES, refusal)
        return " ".join(map(str, ["refused", self.program.call(REFUSAL_NUMBER, refusal), *values]))

    def replied(self, call, reply):
        kind = reply[0].name
        if kind != "numbers":
            return {"nothing": "nothing", "stalelist": "stale"}[plain(kind)]
        every, peer = PEERS.get(call.name, (1, None))
        out = ["answer"]
        for k, n in enumerate(reply[1]):
            if k % every == peer:
                out.append("0 0" if n == NONE else f"1 {n[1]}")
            else:
                out.append("-1" if n == NONE else str(n[1]))
        return " ".join(out)

    def picked(self, blocks, flags, loops):
        get = self.program.get
        shown = "".join(f" {get(b, BLOCK[0])}.{get(b, BLOCK[1])}" for b in blocks)
        return f"picked {flags} loops {' '.join(map(str, loops))} blocks{shown}"

    def answer(self, call, value):
        kind, *rest = value
        if kind.name == "refused":
            return self.refused(*rest)
        if kind.name == "replied":
            return self.replied(call, *rest)
        *rest, used = rest
        if kind.name == "picked":
            shown = self.picked(*rest)
        else:
            shown = {"done": lambda: "done", "said": lambda b: f"answer {int(b)}"}[kind.name](*rest)
        if call.name not in WITH_DRAWS and used != 0:
            return f"{shown}, and {used} draws where none may be used"
        return f"{shown} draws {used}" if call.name in WITH_DRAWS else shown

    def printed(self, data):
        """What the pick program prints for these bytes on standard input."""
        kind, *rest = self.program.call(PROGRAM, data)
        if kind.name == "refused":
            return self.refused(*rest) + "\n"
        blocks, flags, loops, used = rest
        shown = [" ".join(str(self.program.get(b, f)) for f in BLOCK) for b in blocks]
        return "\n".join([*shown, f"flags {flags}", f"draws {used}", f"loops {' '.join(map(str, loops))}", ""])

    # ---- a step
    def made(self, value):
        kind, *rest = value
        if kind.name == "made":
            self.change(rest[0])
            return "done"
        return self.refused(*rest)

    def change(self, picker):
        self.picker = picker
        self.image = bytes(self.program.call(IMAGE, picker))
        if self.program.call(WELL_FORMED, picker) is not True:
            raise Stuck("the picker after the call is not well-formed")

    def memory(self, call):
        return self.program.make(MEMORY, call.memory._asdict())

    def take(self, call):
        kind, what = self.program.call(TAKE, self.picker, self.memory(call), call.room)
        return self.refused(what) if plain(kind.name) == "nottaken" else f"bytes {bytes(what).hex()}"

    def step(self, call):
        """The answer line. The picker and its image are kept."""
        run = self.program.call
        if call.name == "zero":
            self.zero()
            return "done"
        if call.name == "new":
            return self.made(run(NEW, self.memory(call), *map(natural, call.args)))
        if call.name == "read":
            return self.made(run(READ, self.memory(call), call.args[0]))
        if self.picker is None:
            return f"refused {2 if call.memory.words < HEAD_WORDS else 3}"
        if call.name == "image":
            return self.take(call)
        out = run(STEP, self.picker, self.program.make(CALL, dict(zip(CALL, (self.memory(call), self.action(call))))))
        after = self.program.get(out, AFTER)
        if after is not self.picker:
            self.change(after)
        return self.answer(call, self.program.get(out, ANSWER))


# ---- comparison
def shown_image(now, last):
    return "image same" if now == last else "image none" if now is None else f"image {now.hex()}"


def outcome(definition, line):
    """The two lines of the definition's outcome."""
    last = definition.image
    try:
        answer = definition.step(call_of(line))
    except (Stuck, ArithmeticError, AttributeError, LookupError, TypeError, ValueError, RecursionError) as why:
        return f"no value: {type(why).__name__}: {why}", ""
    return answer, shown_image(definition.image, last)


def count(figures, line, answer, marks):
    name = line.split(" ")[0]
    figures["calls"] += 1
    figures["call " + name] += 1
    refused = re.match(r"refused \d+", answer)
    if refused:
        figures[refused.group(0)] += 1
    draws = re.search(r" draws (\d+)$", answer)
    figures["draws"] += int(draws.group(1)) if draws else 0
    for mark in marks:
        figures["difference " + mark] += 1


def first_mismatch(definition, lines, outcomes, figures):
    """What is wrong at the first call where the definition's outcome is not the one due, or None."""
    if len(outcomes) != len(lines):
        return f"{len(outcomes)} outcomes for {len(lines)} calls"
    definition.zero()
    for k, (line, (marks, answer, image)) in enumerate(zip(lines, outcomes)):
        found = outcome(definition, line)
        if found != (answer, image):
            start = max([j for j in range(k + 1) if lines[j] == "zero"], default=0)
            script = "".join(f"{x}\n" for x in lines[start : k + 1]) + "end\n"
            return (
                f"call: {line[:300]}\noracle:     {answer[:600]}\n            {image[:2000]}\n"
                f"definition: {found[0][:600]}\n            {found[1][:2000]}\nscript:\n{script}"
            )
        count(figures, line, answer, marks)
        if image != "image same":
            figures["changes"] += 1
    return None


def oracle_outcomes(lines):
    return ask_oracle("".join(f"{line}\n" for line in lines) + "end\n")


def compare_definition(specs, lines, outcomes=None, figures=None, seconds=None):
    """The first mismatch of the definitions in a folder on these script lines, or None. `outcomes` are the oracle's where they are known.
    Text that cannot be run at all is an AnttError. An edit may make a walk endless: what takes longer than `seconds` is a mismatch."""
    due = oracle_outcomes(lines) if outcomes is None else outcomes
    made = Figures() if figures is None else figures
    try:
        return with_deep_stack(lambda: first_mismatch(Definition(specs), lines, due, made), seconds)
    except TooLong:
        return f"call: {lines[min(made['calls'], len(lines) - 1)][:300]}\nno answer within {seconds} s"


def recorded_outcomes(path):
    """The outcomes of a recorded run."""
    out, marks, answer = [], [], None
    with open(path, encoding="ascii") as f:
        for line in f.read().split("\n"):
            if line.startswith("difference "):
                marks.append(line.split(" ")[1])
            elif line.startswith("image "):
                out.append((marks, answer, line))
                marks = []
            answer = line
    return out


def script_lines(path):
    """The calls of a script."""
    with open(path, encoding="ascii") as f:
        text = f.read()
    calls_of(text)
    return [line for line in text.split("\n") if line and line != "end" and not line.startswith("#")]


# ---- random lists
def some_lists(seed, calls, picks, huge):
    """Lists of calls in batches, until there are so many calls and so many picks."""
    batch, made, picked = [], 0, 0
    for steps in lists(seed, sys.maxsize, huge):
        batch += [s.line for s in steps]
        made += len(steps)
        picked += sum(s.line.startswith("pick_pieces") for s in steps)
        ended = made >= calls and picked >= picks
        if ended or len(batch) >= BATCH:
            yield batch
            batch = []
        if ended:
            return


def random_share(definition, job):
    seed, calls, picks, huge, _ = job
    figures = Figures()
    try:
        for lines in some_lists(seed, calls, picks, huge):
            wrong = first_mismatch(definition, lines, oracle_outcomes(lines), figures)
            if wrong:
                return figures, f"seed {seed}: {wrong}"
    except Mismatch as why:
        return figures, f"seed {seed}: {why}"
    return figures, None


def work(job):
    try:
        return with_deep_stack(lambda: random_share(Definition(job[-1]), job))
    except AnttError as why:
        return Figures(), f"not run: {why}"


def share(many, parts):
    return -(-many // parts)


def random_run(a):
    parts = 2 * a.workers
    jobs = [(a.seed * 1000 + k, share(a.calls, parts), share(a.picks, parts), a.huge, a.specs) for k in range(parts)]
    figures = Figures()
    with multiprocessing.Pool(a.workers) as pool:
        for part, wrong in pool.imap_unordered(work, jobs):
            figures.update(part)
            if wrong:
                return figures, wrong
    return figures, None


def script_run(a):
    figures = Figures()
    todo = [(script_lines(path), None) for path in a.script]
    if a.recorded:
        todo.append((script_lines(CALLS), recorded_outcomes(OUTCOMES)))
    if a.edges:
        todo.append((edges(), None))
    for lines, due in todo:
        try:
            wrong = compare_definition(a.specs, lines, due, figures)
        except (AnttError, Mismatch) as why:
            wrong = str(why)
        if wrong:
            return figures, wrong
    return figures, None


def wrong_program(specs):
    """The first input of compare/programs.py for which the pick program prints something else."""
    definition = Definition(specs)
    for name, (data, due) in PICKS.items():
        found = definition.printed(data)
        if found != due:
            return f"pick program, {name}: {found!r} where {due!r} is due"
    return None


def program_run(a):
    wrong = with_deep_stack(lambda: wrong_program(a.specs))
    if wrong:
        print(f"definition: {wrong}", file=sys.stderr)
        return 1
    print(f"{len(PICKS)} picks of the pick program as they should be")
    return 0


def never_met(figures):
    names = [f"call {name}" for name in STEPS] + [f"refused {k}" for k in CHECKED_REFUSALS]
    return [name for name in names if not figures[name]]


def arguments():
    ap = argparse.ArgumentParser()
    ap.add_argument("calls", type=int, nargs="?", default=0)
    ap.add_argument("seed", type=int, nargs="?", default=1)
    ap.add_argument("--picks", type=int, default=0, help="as many picks at least")
    ap.add_argument("--huge", type=float, default=0.0, help="share of lists with full-size geometries")
    ap.add_argument("--workers", type=int, default=2)
    ap.add_argument("--all", action="store_true", help="every call and refusal must have been met")
    ap.add_argument("--script", nargs="+", default=[], help="scripts of calls instead of random lists")
    ap.add_argument("--recorded", action="store_true", help="the recorded calls instead of random lists")
    ap.add_argument("--programs", action="store_true", help="the pick program on the inputs of compare/programs.py instead")
    ap.add_argument("--edges", action="store_true", help="the lists of compare/edges.py instead of random lists")
    ap.add_argument("--specs", default=SPECS, help="the folder of the definitions")
    return ap.parse_args()


def main():
    a = arguments()
    try:
        if a.programs:
            return program_run(a)
        figures, wrong = script_run(a) if a.script or a.recorded or a.edges else random_run(a)
    except (AnttError, Malformed, OSError) as why:
        print(f"definition: {why}", file=sys.stderr)
        return 2
    if wrong:
        print(f"definition: after {figures['calls']} calls: {wrong}", file=sys.stderr)
        return 1
    report(figures)
    names = sum(name.startswith("call ") for name in figures)
    print(
        f"  {figures['call pick_pieces']} picks, {figures['draws']} draws, {figures['changes']} changes, each well-formed;"
        f" {names} of {len(STEPS)} calls met"
    )
    missing = never_met(figures) if a.all else []
    if missing or not figures["calls"]:
        print("definition: never met: " + (", ".join(missing) or "any call"), file=sys.stderr)
        return 1
    return 0


if __name__ == "__main__":
    sys.exit(main())
