"""The console in plain Python: what each line answers, by reference.py and states.py."""
from functools import partial

import plans
import reference
import states
from reference import INDEXES, Refused
from states import DaySet, Run

MOST_ROOM = 4224
BYTE, WORD = 0xA5, 0xA5A5A5A5A5A5A5A5


class Misread(Exception):
    """A line that is not as it should be, with what was expected."""


def misread_if(condition, expected):
    if condition:
        raise Misread(expected)


class Console:
    """The words of its state and of its day set, and the number of its last line."""

    def __init__(self):
        self.held, self.line = {Run: states.BLANK, DaySet: states.BLANK}, 0

    def answer(self, line):
        """What a line of bytes, without its newline, answers, or None."""
        self.line += 1
        text = text_of(line, self.line == 1)
        try:
            misread_if(len(text) > 1024, "at most 1024 bytes before a comment")
            words = [word for word in text.replace(b"\t", b" ").split(b" ") if word]
            return " ".join(map(str, self.call(words[0], words[1:]))) if words else None
        except Misread as wrong:
            return f"line {self.line}: expected {wrong}"

    def call(self, first, rest):
        """The words of the answer to a call."""
        name = first.decode("latin-1")
        misread_if(name not in CALLS, f"{', '.join(CALLS)} or # as the first word")
        return [name] + CALLS[name](self, rest)


def text_of(line, is_first):
    """A line without a byte order mark, its comment, and a carriage return at its end."""
    if is_first and line.startswith(b"\xef\xbb\xbf"):
        line = line[3:]
    if b"#" in line:
        return line[: line.index(b"#")]
    return line[:-1] if line.endswith(b"\r") else line


# ---- the numbers of a line


def numbers(words, form, count=None, least=0):
    """The numbers of a line that has `count` of them, or else `least` or more."""
    is_wrong = len(words) < least if count is None else len(words) != count
    misread_if(is_wrong, f"{form}, but the number of words after the first is {len(words)}")
    return [number(word, place, form) for place, word in enumerate(words, 2)]


def number(word, place, form):
    misread_if(not all(48 <= byte <= 57 for byte in word), f"{form}, but word {place} is no decimal number")
    misread_if(int(word) >= 2**64, f"{form}, but word {place} is above 18446744073709551615")
    return int(word)


def room_of(room):
    misread_if(room > MOST_ROOM, "ROOM to be at most 4224")
    return room


# ---- the calls on a plan


def refusable(call):
    """0 and what a call answers, or a refusal's number and None."""
    try:
        return 0, call()
    except Refused as refusal:
        return refusal.number, None


def read(console, words):
    misread_if(len(words) > 1, "read HEX, the plan's bytes in one word")
    digits = words[0] if words else b""
    other = next((i for i, byte in enumerate(digits, 1) if chr(byte) not in "0123456789abcdefABCDEF"), 0)
    misread_if(other, f"hexadecimal digits, but character {other} of HEX is another")
    misread_if(len(digits) % 2, "two hexadecimal digits a byte, got an odd number of digits")
    code, plan = refusable(lambda: reference.read(bytes.fromhex(digits.decode())))
    console.held[Run] = states.BLANK if code else states.made(plan, reference.one_start(plan, 0), 0, 0)
    return [code]


def write(console, words):
    room = room_of(*numbers(words, "write ROOM", 1))

    def plan_bytes():
        data = plans.bytes_of(Run(console.held[Run]).plan)
        reference.refuse_if(room < len(data), 13)
        return data

    code, data = refusable(plan_bytes)
    data = data or b""
    lent = data + bytes([BYTE]) * (room - len(data))
    return [code, len(data)] + [lent.hex()] * (room > 0)


def opened(plan, starts, count):
    """The words of a plan with this run."""
    reference.refuse_run(plan, starts, count)
    return states.made(plan, starts, count, 0)


def open_run(console, words):
    count, *starts = numbers(words, "open COUNT START ..", least=1)
    code, state = refusable(lambda: opened(Run(console.held[Run]).plan, starts, count))
    console.held[Run] = state or console.held[Run]
    return [code]


def make_day_set(console, words):
    (size,) = numbers(words, "day N", 1)

    def made():
        plan = Run(console.held[Run]).plan
        return opened(plan, reference.one_start(plan, 0), size)

    code, day_set = refusable(made)
    console.held[DaySet] = day_set or states.BLANK
    return [code]


def of_index(console, index, answer):
    """What is answered for an index of the state's plan: a refusal's number or 0, and a number."""

    def answered():
        plan = Run(console.held[Run]).plan
        reference.refuse_if(index >= INDEXES, 11)
        return answer(plan)

    code, number = refusable(answered)
    return [code, number or 0]


def second(console, words):
    (index,) = numbers(words, "second INDEX", 1)
    return of_index(console, index, lambda plan: reference.second(plan, index))


def slot(console, words):
    index, axis, slots = numbers(words, "slot INDEX AXIS SLOTS", 3)
    return of_index(console, index, lambda plan: reference.slot(plan, index, axis, slots))


# ---- the calls on what the console holds: its state's run or its day set


def lent_words(room, written):
    return list(written) + [WORD] * (room - len(written))


def jump(kind, form, console, words):
    index, room = numbers(words, form, 2)
    room_of(room)

    def point():
        held = kind(console.held[kind])
        reference.refuse_if(index >= held.indexes, 11)
        reference.refuse_if(room < held.width, 13)
        return held.point(index)

    code, written = refusable(point)
    return [code] + lent_words(room, written or ())


def points_taken(kind, console, room, most):
    """As many points as are left and fit whole, at most so many: a refusal's number or 0, how many, and their words."""

    def taken_points():
        held = kind(console.held[kind])
        reference.refuse_if(room < held.width, 13)
        reference.refuse_if(held.taken >= held.count, 12)
        k = min(most, held.count - held.taken, room // held.width)
        return k, held.moved(k), held.points(held.taken, k)

    code, took = refusable(taken_points)
    if code:
        return code, 0, []
    console.held[kind] = took[1]
    return 0, took[0], [x for point in took[2] for x in point]


def step(kind, form, console, words):
    room = room_of(*numbers(words, form, 1))
    code, _, written = points_taken(kind, console, room, 1)
    return [code] + lent_words(room, written)


def block(kind, form, console, words):
    room = room_of(*numbers(words, form, 1))
    code, k, written = points_taken(kind, console, room, room)
    return [code, k] + lent_words(room, written)


def count(kind, form, console, words):
    window = numbers(words, form)

    def counted():
        held = kind(console.held[kind])
        return held.counted(reference.cuts_of(window, held.width))

    code, answer = refusable(counted)
    return [code, *(answer or (0, 0))]


def show(kind, form, console, words):
    numbers(words, form, 0)
    return list(console.held[kind])


def poke(kind, form, console, words):
    place, value = numbers(words, form, 2)
    misread_if(place >= states.WORDS, "PLACE to be at most 219")
    here = console.held[kind]
    console.held[kind] = here[:place] + (value,) + here[place + 1 :]
    return [place, value]


def blank(kind, form, console, words):
    numbers(words, form, 0)
    console.held[kind] = states.BLANK
    return []


CALLS = {
    "read": read,
    "write": write,
    "open": open_run,
    "jump": partial(jump, Run, "jump INDEX ROOM"),
    "second": second,
    "slot": slot,
    "step": partial(step, Run, "step ROOM"),
    "place": partial(step, Run, "place ROOM"),
    "block": partial(block, Run, "block ROOM"),
    "count": partial(count, Run, "count U Q U Q .."),
    "strips": partial(count, Run, "strips U Q U Q .."),
    "state": partial(show, Run, "state alone"),
    "poke": partial(poke, Run, "poke PLACE VALUE"),
    "blank": partial(blank, Run, "blank alone"),
    "day": make_day_set,
    "dayjump": partial(jump, DaySet, "dayjump N ROOM"),
    "daystep": partial(step, DaySet, "daystep ROOM"),
    "dayblock": partial(block, DaySet, "dayblock ROOM"),
    "daycount": partial(count, DaySet, "daycount U Q U Q .."),
    "daystate": partial(show, DaySet, "daystate alone"),
    "daypoke": partial(poke, DaySet, "daypoke PLACE VALUE"),
    "dayblank": partial(blank, DaySet, "dayblank alone"),
}


def answers(script):
    """What the console writes for a script's bytes."""
    lines = script.split(b"\n")
    if lines[-1] == b"":
        lines.pop()
    console = Console()
    said = [console.answer(line) for line in lines]
    return "".join(answer + "\n" for answer in said if answer is not None)
