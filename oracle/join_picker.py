"""Writes the module piece_picker to standard output: the unchanged file, the text appended to it, and the ruled copies.

Usage: join_picker.py PIECE_PICKER APPENDED

The ruled copies are the texts of expand_piece, add_blocks and pick_pieces under other names, with the two rules that document 01 sets
where the unchanged functions divide by zero or walk for ever. A rule that applies notes it (`rules`, in the appended text).
"""

import sys

FUNCTION_END = "\n    }\n"

ZERO_RUN = """\
        if whole_pieces == 0 && options.contains(PickerOptions::ALIGN_EXPANDED_PIECES) {
            rules::note(rules::ZERO_RUN);
            return (piece, PieceIndex(piece.0 + 1));
        }
"""

RING_START = """\
            let mut at_start = (interesting_blocks.len(), backup_blocks.len(), ignored_pieces.len());
"""

RING_CAME_BACK = """\
                if came_back {
                    let now = (interesting_blocks.len(), backup_blocks.len(), ignored_pieces.len());
                    if now == at_start {
                        rules::note(rules::RING_WALK);
                        break;
                    }
                    at_start = now;
                }
"""

SKIPPING = "                while !self.is_piece_free(PieceIndex(piece), pieces)\n"

SKIPPED_TO_START = """\
                    if piece == start_piece {
                        break;
                    }
"""

AFTER_SKIPPING = """\
                if !self.is_piece_free(PieceIndex(piece), pieces)
                    || ignored_pieces.contains(&PieceIndex(piece))
                {
                    break;
                }
"""


def replaced(text, old, new, times=1):
    """`text` with `old` replaced by `new`, where `old` stands exactly `times` times."""
    found = text.count(old)
    if found != times:
        sys.exit(f"join_picker.py: {found} times instead of {times}: {old!r}")
    return text.replace(old, new)


def followed(text, anchor, more):
    """`text` with `more` right behind `anchor`."""
    return replaced(text, anchor, anchor + more)


def function(text, signature):
    """The text of the method whose first line starts with `signature`."""
    before, found, rest = text.partition("    " + signature)
    if not found or signature in rest:
        sys.exit(f"join_picker.py: not exactly once: {signature!r}")
    body, found, _ = rest.partition(FUNCTION_END)
    if not found:
        sys.exit(f"join_picker.py: no end: {signature!r}")
    return "    " + signature + body + FUNCTION_END


def ruled_expand_piece(text):
    text = function(text, "fn expand_piece(")
    text = replaced(text, "fn expand_piece(", "fn expand_piece_ruled(")
    return followed(text, "        let whole_pieces = (contiguous_blocks + blocks - 1) / blocks;\n", ZERO_RUN)


def ruled_add_blocks(text):
    text = function(text, "fn add_blocks(")
    text = replaced(text, "fn add_blocks(", "fn add_blocks_ruled(")
    return replaced(text, "self.expand_piece(", "self.expand_piece_ruled(")


def ruled_pick_pieces(text):
    text = function(text, "pub fn pick_pieces(")
    text = replaced(text, "fn pick_pieces(", "fn pick_pieces_ruled(")
    text = replaced(text, "self.expand_piece(", "self.expand_piece_ruled(")
    text = replaced(text, "self.add_blocks(", "self.add_blocks_ruled(", times=8)
    text = followed(text, "            let mut piece = start_piece;\n", RING_START)
    text = replaced(text, SKIPPING, "                let mut came_back = false;\n" + SKIPPING)
    text = replaced(
        text, SKIPPED_TO_START, SKIPPED_TO_START.replace("break;", "came_back = true;\n                        break;")
    )
    return followed(text, AFTER_SKIPPING, RING_CAME_BACK)


def joined(unchanged, appended):
    ruled = [ruled_expand_piece(unchanged), ruled_add_blocks(unchanged), ruled_pick_pieces(unchanged)]
    return unchanged + "\n" + appended + "\nimpl PiecePicker {\n" + "\n".join(ruled) + "}\n"


def main():
    if len(sys.argv) != 3:
        sys.exit("usage: join_picker.py PIECE_PICKER APPENDED")
    texts = []
    for path in sys.argv[1:]:
        with open(path, encoding="utf-8", newline="") as file:
            texts.append(file.read())
    sys.stdout.reconfigure(encoding="utf-8", newline="")
    sys.stdout.write(joined(*texts))


if __name__ == "__main__":
    main()
