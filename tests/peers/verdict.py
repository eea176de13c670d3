"""When two answers disagree."""
from fractions import Fraction
from math import prod

from library import buffer_after, numbers


class Disagreement(Exception):
    pass


def agree(question, ours, theirs):
    """Compares what the reference has with what it should have."""
    if ours != theirs:
        raise Disagreement(f"{question}: the reference has {ours} and not {theirs}")


def near(question, inside, count, cuts, bound):
    """Holds a count to demand 3: it is less than the bound away from N times the window's volume."""
    if not abs(inside - count * prod(Fraction(*cut) for cut in cuts)) < bound:
        raise Disagreement(f"{question}: {inside} inside is not within {bound} of N times the volume")


def same_answer(question, ours, peer, theirs):
    """Compares the library's code and buffer with a peer's code and written bytes."""
    code, written = theirs
    if ours == (code, buffer_after(written)):
        return
    said, meant = shown(ours[0], ours[1][: len(written)]), shown(code, written)
    touched = f" but leaves the buffer {ours[1].hex()}" if said == meant else ""
    raise Disagreement(f"{question}: hisowake answers {said}{touched}, {peer} {meant}")


def shown(code, written):
    if code != 0:
        return f"refusal {code}"
    return " ".join(map(str, numbers(written))) or "no refusal"
