"""Recorded calls and their outcomes as terms of the definition, for compare/steps.py. Every name of the definition stands at the head;
those of calls and questions are the script's. A name is written as the definition's text spells it."""
from compare.spelling import spelled
from reference.calls import ENOUGH
from reference.image import body_length
from reference.questions import LISTS, LISTS_OF_PIECE, OF_BLOCK, OF_PIECE, OF_PLACE, WHOLE
from reference.script import WITH_DRAWS

# ---- names of the definition, by the module that they are imported from
LIBRARY = """use Rattle.std.specs.Prelude.{◌≡◌, refl, true, false, ℕ, List, [], ◌∷◌}
use Rattle.std.proofs.Math.Option.{none, some}
"""
ACTIONS = "Rattle.model.specs.Calls"
QUESTIONS = "Rattle.model.specs.ask.Questions"
BLOCKS = "Rattle.model.specs.pick.Blocks"
REFUSALS = "Rattle.types.specs.declared.refusal.Refusal.TheVariants"
QUESTION, DONE, SAID, REPLIED, PICKED, REFUSED = "question", "done", "said", "replied", "picked", "refused"
OF = {"of_picker": WHOLE, "list_of_picker": LISTS, "of_piece": OF_PIECE, "list_of_piece": LISTS_OF_PIECE, "of_block": OF_BLOCK}
NUMBERS, NOTHING, STALE = "numbers", "nothing", "stale_list"
PIECE_BLOCK = "piece_block"
# of crates/replayed/specs/Replay.antt
REPLAY = "Rattle.replayed.specs.Replay"
NEW, READ, TAKE, CALL = "new_line", "read_line", "image_line", "call_line"
STANDS, NOT_DONE, BYTES_TAKEN, ANSWERED = "stands", "not_done", "bytes_taken", "answered"
OUTCOMES_OF, OUTCOME, WORDS, ASKING = "outcomes", "outcome", "words", "asking"
PLENTY, LENDING = "plenty", "lending"
# of crates/replayed/proofs/Replaying.antt
OPENING, REPLAYING = "Rattle.replayed.proofs.Replaying", "replaying"

# places lent where the script lends enough, and the length of a buffer; `plenty` is three such
MANY = 1000000
ENOUGH_WORDS = 5000
# numbers of a question's answer for each record, and which of them are a peer's flag and number
PEER_AT = {"get_downloader": (2, 0), "get_downloaders": (2, 0), "block_peer": (2, 0), "blocks_for_piece": (4, 2)}
WITH_PEER = ("mark_as_downloading", "mark_as_writing", "mark_as_finished", "abort_download", "mark_as_canceled")


# the enum's cases, in the order of the table
CASES = (
    *("Geometry", "ShortMemory", "IllFormedMemory", "FewDraws", "OutOfRange", "TooManyPeers", "NoPeerToTake", "HavePiece", "NotWriting"),
    *("TooManyPartials", "PickArguments", "ShortOutput", "IllFormedImage"),
)


def refusal(t, number, *place):
    """A refusal as the definition has it; 13 has a place."""
    return t.call(t.take(REFUSALS, CASES[int(number) - 1]), *place)


# ---- terms
class Terms:
    """Writes terms, and keeps what they import."""

    def __init__(self):
        self.used = {}

    def take(self, module, name):
        name = spelled(module, name)
        self.used.setdefault(module, set()).add(name)
        return name

    def call(self, *words):
        return "(" + " ".join(str(w) for w in words) + ")" if len(words) > 1 else str(words[0])

    def items(self, terms):
        return "(" + " ∷ ".join(terms + ["[]"]) + ")" if terms else "[]"

    def numbers(self, values):
        return self.items([str(v) for v in values])

    def records(self, data):
        """The bytes of an image, a record to a line."""
        lines, k = [], 0
        while k < len(data):
            end = k + 1 + body_length(data[k])
            lines.append("    " + " ∷ ".join(str(b) for b in data[k:end]))
            k = end
        return " ∷\n".join(lines) + " ∷ []"

    def option(self, value):
        return "none" if value is None else f"(some {value})"


def lent(value):
    return MANY if value == ENOUGH else value


def used_draws(step):
    return int(step.answer[-1]) if "draws" in step.answer else 0


def words(t, step):
    """The lent words: those that are used, then zeros. Only used words matter, and whether they are enough, so the answer is that for the
    recorded words; a list longer than enough is cut."""
    draws = step.call.draws
    return t.call(t.take(REPLAY, WORDS), min(draws.many, ENOUGH_WORDS), t.numbers([draws[k] for k in range(used_draws(step))]))


def question(t, step):
    name, args = step.call.name, step.call.args
    if name in OF_PLACE:
        return t.call(t.take(QUESTIONS, name), *args)
    of = next(of for of, table in OF.items() if name in table)
    room = [lent(step.call.room)] if name in LISTS or name in LISTS_OF_PIECE else []
    return t.call(t.take(QUESTIONS, of), t.take(QUESTIONS, name), *args, *room)


def action(t, step):
    name, args = step.call.name, step.call.args
    if name in OF_PLACE or any(name in table for table in OF.values()):
        return t.call(t.take(ACTIONS, QUESTION), question(t, step))
    if name == "pick_pieces":
        options, wanted, run, peers, peer, bits, data, suggestions = args
        ask = t.call(t.take(REPLAY, ASKING), options, wanted, run, peers, t.option(peer), bits, t.numbers(data), t.numbers(suggestions))
        return t.call(t.take(ACTIONS, name), ask, step.call.free, words(t, step))
    peer_at = 2 if name in WITH_PEER else None
    terms = [t.option(a) if k == peer_at else a for k, a in enumerate(args)]
    return t.call(t.take(ACTIONS, name), *terms, *([words(t, step)] if name in WITH_DRAWS else []))


def memory(t, step):
    """The lengths of the three buffers."""
    if all(length == ENOUGH for length in step.call.memory):
        return t.take(REPLAY, PLENTY)
    return t.call(t.take(REPLAY, LENDING), *map(lent, step.call.memory))


def line(t, step, image):
    """A line of the script; `image` is the name of the image after it."""
    name, args, buffers = step.call.name, step.call.args, memory(t, step)
    if name == "new":
        return " ".join(map(str, (t.take(REPLAY, NEW), buffers, *args)))
    if name == "read":
        return f"{t.take(REPLAY, READ)} {buffers} {image if step.makes() else t.numbers(args[0])}"
    if name == "image":
        return f"{t.take(REPLAY, TAKE)} {buffers} {lent(step.call.room)}"
    return f"{t.take(REPLAY, CALL)} {buffers} {action(t, step)}"


def told_numbers(name, words):
    """The numbers of a question's answer, None for no peer and for no bucket."""
    values = [int(w) for w in words]
    if name == "piece_stats":
        return [None if v < 0 else v for v in values]
    if name not in PEER_AT:
        return values
    width, at = PEER_AT[name]
    out = []
    for k in range(0, len(values), width):
        flag, peer = values[k + at : k + at + 2]
        out += values[k : k + at] + [peer if flag else None]
    return out


def told(t, step):
    name, answer = step.call.name, step.answer
    plain = {"nothing": NOTHING, "stale": STALE}
    if answer[0] in plain:
        return t.take(QUESTIONS, plain[answer[0]])
    return t.call(t.take(QUESTIONS, NUMBERS), t.items([t.option(v) for v in told_numbers(name, answer[1:])]))


def picked_answer(t, step):
    answer = step.answer
    blocks = answer[answer.index("blocks") + 1 : answer.index("draws")]
    made = [t.call(t.take(BLOCKS, PIECE_BLOCK), *b.split(".")) for b in blocks]
    return t.call(t.take(ACTIONS, PICKED), t.items(made), answer[1], t.numbers(answer[3:10]), used_draws(step))


def answer_of(t, step):
    """The answer of a call, as the definition has it."""
    kind = step.answer[0]
    if kind == "refused":
        return t.call(t.take(ACTIONS, REFUSED), refusal(t, *step.answer[1:2]))
    if kind == "picked":
        return picked_answer(t, step)
    if kind == "done":
        return t.call(t.take(ACTIONS, DONE), used_draws(step))
    if step.call.name in WITH_DRAWS:
        return t.call(t.take(ACTIONS, SAID), "true" if step.answer[1] == "1" else "false", used_draws(step))
    return t.call(t.take(ACTIONS, REPLIED), told(t, step))


def given(t, step):
    if step.call.name not in ("new", "read", "image"):
        return t.call(t.take(REPLAY, ANSWERED), answer_of(t, step))
    kind, *rest = step.answer
    if kind == "refused":
        return t.call(t.take(REPLAY, NOT_DONE), refusal(t, *rest))
    if kind == "bytes":
        return t.call(t.take(REPLAY, BYTES_TAKEN), t.numbers(bytes.fromhex(rest[0])))
    return t.take(REPLAY, STANDS)


def images(t, run):
    """A definition for each image of a run, by the call that first gave it, and the name of the image after each step."""
    made, names, last = [], [], None
    for step in run:
        if last is None or step.image != last:
            names.append(f"image_{step.number}" if step.image else "[]")
            if step.image:
                made.append(f"abbrev {names[-1]} : List ℕ\n{names[-1]} =\n{t.records(bytes.fromhex(step.image))}\n")
        else:
            names.append(names[-1])
        last = step.image
    return made, names


def theorem(t, run):
    first, last = run[0].number, run[-1].number
    made, names = images(t, run)
    lines = "\n    ∷ ".join([line(t, step, name) for step, name in zip(run, names)] + ["[]"])
    ends = "\n    ∷ ".join([f"{t.take(REPLAY, OUTCOME)} {given(t, step)} {name}" for step, name in zip(run, names)] + ["[]"])
    statement = f"    {t.take(REPLAY, OUTCOMES_OF)} none\n    ({lines})\n    ≡ {ends}\n"
    proof = f"unfolding {t.take(OPENING, REPLAYING)}\ncalls_{first} = refl\n"
    calls = f"calls {first} to {last}" if first < last else f"call {first}"
    return "\n".join(made + [f"-- {calls}\ncalls_{first} :\n{statement}{proof}"])
