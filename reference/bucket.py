"""A piece's bucket, and a draw."""
from .state import DOWNLOADING_REVERSE, FINISHED_QUEUE, FULL, FULL_REVERSE, OPEN

NO_BUCKET = -1


def is_reverse(state):
    return state in (DOWNLOADING_REVERSE, FULL_REVERSE)


def adjustment(state):
    return 1 if is_reverse(state) else 2 if state == OPEN else 3


def unlisted(piece, seeds):
    """The piece is in no bucket."""
    return piece.wish == 0 or piece.had or piece.count + seeds == 0 or piece.state in (FULL, FINISHED_QUEUE)


def bucket(piece, seeds):
    if unlisted(piece, seeds):
        return NO_BUCKET
    return (piece.count + 1) * (8 - piece.wish) * 3 - adjustment(piece.state)


def bucket_at(s, i):
    return bucket(s.pieces[i], s.seeds)


def draw(draws, used, limit):
    """Draw number `used`, from 0 to the limit."""
    return draws[used] % (limit + 1)
