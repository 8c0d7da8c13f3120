"""Lists of calls at limits that random lists on small geometries hardly reach: 2,048 blocks in partials, 200 pieces of an end game, 512
partials, a run that does not fit beside a block that nobody in particular asked for."""

BLOCK = 16384


def ones(n):
    """A bitfield with every bit set."""
    return f"{n} {'ff' * -(-n // 8)}"


def blocks_in_partials(b, many):
    """So many partials of b blocks, and picks with peers enough."""
    n = many + 2
    lines = ["zero", f"new {n * b * BLOCK} {b * BLOCK}"]
    lines += [f"mark_as_downloading {i} 0 1 0" for i in range(many)]
    return lines + [f"pick_pieces {options} 3 {run} 1000 2 {ones(n)} -" for options in (0, 1, 8, 16) for run in (0, 5)]


def end_game(many):
    """So many pieces of one block, each asked of a peer; another peer draws among them."""
    lines = ["zero", f"new {many} 1"] + [f"mark_as_downloading {i} 0 1 0" for i in range(many)]
    draws = ("0", "99", "100", "199", "200", str(many - 1), "4294967295", "199,3")
    return lines + [f"pick_pieces {k % 2} 5 0 1000 2 {ones(many)} - draws=4352:{words}" for k, words in enumerate(draws)]


def no_partial_left():
    """512 partials, and what would open one more."""
    lines = ["zero", "new 514 1"] + [f"mark_as_downloading {i} 0 1 0" for i in range(512)]
    lines += [f"{call} 513 0 2" for call in ("mark_as_downloading", "mark_as_writing", "mark_as_finished", "abort_download")]
    lines[-4] += " 0"
    return lines + ["abort_download 7 0 1", "mark_as_writing 513 0 2", "get_download_queue_size", "is_downloading 512"]


def set_aside():
    """A partial with a block asked for, by a peer or by nobody, and a run longer than its free blocks."""
    lines = []
    for peer in ("-", "1", "2"):
        lines += ["zero", f"new {3 * 4 * BLOCK} {4 * BLOCK}", f"mark_as_downloading 0 1 {peer} 0"]
        asked = [(options, n, run) for options in (8, 9, 12, 24, 1) for n in (1, 3) for run in (2, 3, 8)]
        lines += [f"pick_pieces {options} {n} {run} 1000 2 {ones(3)} -" for options, n, run in asked]
    return lines


def most_peers():
    """A thousand peers of a piece and a thousand requesters of a block."""
    lines = ["zero", f"new {2 * BLOCK} {BLOCK}"] + ["inc_refcount 0"] * 500 + ["inc_refcount_all"] * 500
    lines += ["inc_refcount 0", "inc_refcount_all", "get_availability 0", "inc_refcount 1"]
    return lines + [f"mark_as_downloading 1 0 {k} 0" for k in range(1002)] + ["num_peers_block 1 0"]


def edges():
    """All of them, one after another."""
    lines = []
    for b, many in ((256, 7), (256, 8), (256, 9), (128, 15), (128, 16), (128, 17), (31, 66), (31, 67)):
        lines += blocks_in_partials(b, many)
    for many in (199, 200, 201, 205):
        lines += end_game(many)
    return lines + no_partial_left() + set_aside() + most_peers()
