"""`python3 replay/spoil.py KIND`: recorded outcomes on standard input with one answer of a kind made wrong on standard output, to try
whether the replay finds it. Without a kind the kinds are printed. Changed is the middle one of the lines that can be changed so."""
import re
import sys


def raised(match):
    """The number one more."""
    return match.group(1) + str(int(match.group(2)) + 1)


# a pattern that some recorded line holds, and what becomes of it
KINDS = {
    "number": (r"^(answer )(\d+)", raised),
    "last_number": (r"^(answer \d.* )(\d+)$", raised),
    "truth": (r"^answer 1 draws", "answer 0 draws"),
    "refusal": (r"^(refused )(\d+)$", raised),
    "fault_place": (r"^(refused 13 )(\d+)$", raised),
    "not_refused": (r"^refused \d+$", "done"),
    "block": (r"^(picked .* blocks \d+\.)(\d+)", raised),
    "piece": (r"^(picked .* blocks )(\d+)", raised),
    "block_left_out": (r"^(picked .* blocks) \d+\.\d+", r"\1"),
    "flags": (r"^(picked )(\d+)", raised),
    "loops": (r"^(picked \d+ loops(?: \d+){3} )(\d+)", raised),
    "draws": (r"^(picked .* draws )(\d+)$", raised),
    "draws_of_change": (r"^(done draws )(\d+)$", raised),
    "image_byte": (r"^(image [0-9a-f]{60})(?!ff)..", r"\1ff"),
    "image_cut": (r"^(image [0-9a-f]+)..$", r"\1"),
    "image_same": (r"^image same$", "image none"),
    "bytes": (r"^(bytes [0-9a-f]{20})(?!ff)..", r"\1ff"),
    "nothing": (r"^nothing$", "answer 0"),
    "stale": (r"^stale$", "nothing"),
    "done": (r"^done$", "answer 0"),
    "count": (r"^(end )(\d+)$", raised),
}


def spoilt(lines, kind):
    pattern, wrong = KINDS[kind]
    found = [k for k, line in enumerate(lines) if re.search(pattern, line)]
    if not found:
        sys.exit(f"spoil: no recorded line has a {kind}")
    k = found[len(found) // 2]
    return lines[:k] + [re.sub(pattern, wrong, lines[k], count=1)] + lines[k + 1 :]


def main():
    if len(sys.argv) < 2:
        print("\n".join(KINDS))
        return
    print("\n".join(spoilt(sys.stdin.read().split("\n"), sys.argv[1])), end="")


if __name__ == "__main__":
    main()
