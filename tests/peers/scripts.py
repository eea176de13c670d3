"""Random scripts for the console: plans of all families, valid and slightly wrong, and every line, with what the reference answers."""
import plans
import reference
import states
import windows
from console import Console
from reference import Refused
from states import DaySet, Run


def script(rng, parts):
    """The lines of so many parts, what each answers, and whether the state's starts are unequal then. The reference goes along, so that the lines
    suit its state."""
    console, lines, answers, unequal = Console(), [], [], []
    for _ in range(parts):
        for line in part(rng, console):
            lines.append(line)
            answers.append(console.answer(line))
            unequal.append(states.is_unequal(console.held[Run]))
    return lines, answers, unequal


def part(rng, console):
    """A plan, a run of it, and calls on them; in some parts a day set is made, or words of the state are set, between them."""
    data = plans.valid(rng) if rng.random() < 0.7 else plans.random_string(rng)
    yield text("read", data.hex() if rng.random() < 0.5 else data.hex().upper())
    yield opening(rng, console)
    for _ in range(rng.randint(0, 3)):
        yield call(rng, console)
    if rng.random() < 0.5:
        yield from day_part(rng, console)
    if rng.random() < 0.2:
        yield from pokes(rng, console, Run, "poke")
    if rng.random() < 0.3:
        yield poke(rng, console, Run, "poke")
    for _ in range(rng.randint(1, 9)):
        yield call(rng, console)
    if rng.random() < 0.3:
        yield from both_counts(rng, console)
    if rng.random() < 0.2:
        yield text("state")


def day_part(rng, console):
    """A day set and calls on it; in some parts words of it are set between them."""
    yield making(rng, console)
    for _ in range(rng.randint(0, 3)):
        yield day_call(rng, console)
    if rng.random() < 0.2:
        yield poke(rng, console, DaySet, "daypoke")
    if rng.random() < 0.2:
        yield from pokes(rng, console, DaySet, "daypoke")
    for _ in range(rng.randint(1, 6)):
        yield day_call(rng, console)
    if rng.random() < 0.2:
        yield text("daystate")
        yield text(rng.choice(("dayblank", "blank")))


def text(*words):
    return " ".join(map(str, words)).encode()


def genuine(console, kind):
    """The state's run or the day set, or None where it is foreign."""
    try:
        return kind(console.held[kind])
    except Refused:
        return None


def plan_held(rng, console, kind):
    """Its plan, or any where it is foreign."""
    held = genuine(console, kind)
    return held.plan if held else plans.random_plan(rng)


def call(rng, console):
    kind = rng.choice((jump, jump, step, step, step, block, second, slot, slot, count, strips, write, opening, wrong_line, day_call))
    return kind(rng, console)


# ---- openings


def opening(rng, console):
    """A short run anywhere, one about the last index, one that is counted by strips, a long one, or one that may be refused."""
    short, long = (rng.randint(0, 9), rng.randint(0, 300), rng.randint(0, 3), rng.randint(8192, 20000)), (2**31, 2**32, 2**32 - 5)
    count = rng.choice(short * 2 + (rng.choice(long),))
    starts = plans.random_starts(rng, plan_held(rng, console, Run), count)
    if rng.random() < 0.3:
        count, starts = rng.choice((beyond, beside, missing, surplus, none))(rng, count, starts)
    return text("open", count, *starts)


def put(rng, starts, start):
    """The starts with another one at some place, or behind them."""
    place = rng.randint(0, len(starts))
    return starts[:place] + (start,) + starts[place + 1 :]


def beyond(rng, count, starts):
    """A start about the end of its range or beyond, or a count that is too large for all."""
    start, count = windows.wrong_run(rng)
    return count, put(rng, starts, start)


def beside(rng, count, starts):
    """A start next to another, which no Sobol axis may have."""
    return count, put(rng, starts, abs(rng.choice(starts) - 1))


def missing(rng, count, starts):
    return count, starts[: rng.randrange(len(starts))]


def surplus(rng, count, starts):
    """More starts than axes; those behind may be out of range, and 11 then comes before 17."""
    start = rng.choice((0, 0, 2**32 - count, 2**32 - count + 1, 2**64 - 1))
    return count, starts + (start,) * rng.choice((1, 1, 5, 400))


def none(rng, count, starts):
    """No start at all, which 17 refuses for any count."""
    return rng.choice((count, 0, 2**32 + 1, 2**64 - 1)), ()


# ---- the calls on the state


def room(rng):
    return rng.choice((0, 6, 6, rng.randint(0, 7), rng.randint(0, 40), rng.randint(0, 400)))


def index(rng):
    return rng.choice((plans.random_index(rng), plans.random_index(rng), 2**32 - 1, 2**32, rng.randrange(2**64)))


def jump(rng, console):
    return text("jump", index(rng), room(rng))


def step(rng, console):
    return text(rng.choice(("step", "place")), room(rng))


def block(rng, console):
    return text("block", room(rng))


def second(rng, console):
    return text("second", index(rng))


def slot(rng, console):
    """An axis that the plan has, or one beside; a day, a power, a few slots, the most, or a number that is none."""
    axis = rng.choice((1, 1, rng.randint(1, 6), 0, rng.randint(1, 7), rng.randrange(2**64)))
    most, days, wrong = 2**24, (82800, 86400, 90000), (0, 2**24 + 1, rng.randrange(2**64))
    slots = rng.choice(days + (most, most - 1, 1, 2 ** rng.randint(0, 24), rng.randint(1, 300), rng.randint(1, most)) + (rng.choice(wrong),))
    return text("slot", index(rng), axis, slots)


def write(rng, console):
    return text("write", rng.choice((0, 71, rng.randint(0, 80))))


def reading(rng, console):
    return text("read", plans.valid(rng).hex())


def count(rng, console):
    return count_line(rng, console, "count", 2**20)


def strips(rng, console):
    return count_line(rng, console, "strips", 2**32)


def both_counts(rng, console):
    """The same window twice: walked, and by strips."""
    line = count(rng, console)
    yield line
    yield line.replace(b"count", b"strips")


def count_line(rng, console, name, most):
    """A window over a run of so many points at most, which the reference counts soon; else one that any state refuses."""
    run = genuine(console, Run)
    if run is None:
        return foreign_count(rng, name)
    if run.count <= states.LONG:
        return window_line(rng, name, windows.random_cuts(rng, run.plan, run.starts, run.count))
    if run.count <= most and states.is_long(run.plan, run.count):
        return window_line(rng, name, windows.strip_cuts(rng, run.plan, run.starts, run.count, 3000))
    return text(name, *([1, 2] * run.width + [1]))


def foreign_count(rng, name):
    return text(name, *(x for _ in plans.random_plan(rng).axes for x in (1, rng.randint(1, 9))))


def window_line(rng, name, cuts):
    """A window, in some lines wrong."""
    window = [x for cut in cuts for x in cut]
    if rng.random() < 0.3:
        window[rng.randrange(len(window))] = rng.choice((0, 2**24 + 1, 2**64 - 1))
    if rng.random() < 0.1:
        window = window[: rng.randrange(len(window))]
    return text(name, *window)


# ---- words that are set


def poke(rng, console, kind, name):
    """Sets a word to what it is, to its neighbour's value, beside it, or to anything."""
    every, first, last = range(states.WORDS), range(14), range(states.STARTS, states.WORDS)
    place = rng.choice(rng.choice((every, first, last, range(14, 46))))
    words = console.held[kind]
    word = words[place]
    values = (word, words[place - 1], (word + 1) % 2**64, max(word - 1, 0), word ^ 1 << rng.randrange(64), 0, rng.randrange(2**64))
    return text(name, place, rng.choice(values))


def pokes(rng, console, kind, name):
    """Makes what is held, word by word, the state of another run, of its plan or of any, in some with one more start put on an axis or behind the
    last: calls may leave it, or it is foreign."""
    plan = plan_held(rng, console, kind) if rng.random() < 0.7 else plans.random_plan(rng)
    count = rng.choice((0, rng.randint(1, 9), rng.randint(1, 300)))
    starts = reference.one_start(plan, 0) if kind is DaySet else plans.random_starts(rng, plan, count)
    if rng.random() < 0.5:
        starts = put(rng, starts, rng.choice((starts[0] + 1, 2**32 - count, 2**32 - count + 1, rng.randrange(2**64))))[:6]
    words = states.made(plan, starts, count, rng.choice((0, count, rng.randint(0, count))))
    yield from (text(name, place, word) for place, word in enumerate(words) if word != console.held[kind][place])


# ---- the day set


def day_call(rng, console):
    return rng.choice((day_jump, day_jump, day_step, day_step, day_step, day_block, day_count, day_count, making))(rng, console)


def making(rng, console):
    """A small set, the empty one, that of one point, the largest, or one that is too large."""
    few, large = (rng.randint(2, 9), rng.randint(2, 60)), (rng.randrange(2**32), 2**32, 2**32 + 1, rng.randrange(2**64))
    return text("day", rng.choice(few * 3 + large + (0, 1)))


def day_room(rng):
    return rng.choice((7, room(rng)))


def day_jump(rng, console):
    """About the size, below it, or anywhere."""
    size = states.run_in(console.held[DaySet])[1]
    n = rng.choice((max(size - 1, 0), size, rng.randint(0, size), rng.randint(0, size), index(rng)))
    return text("dayjump", n, day_room(rng))


def day_step(rng, console):
    return text("daystep", day_room(rng))


def day_block(rng, console):
    return text("dayblock", day_room(rng))


def day_count(rng, console):
    day_set = genuine(console, DaySet)
    if day_set is None:
        return foreign_count(rng, "daycount")
    if states.is_long(day_set.plan, day_set.count) and rng.random() < 0.5:
        cuts = [(rng.randint(0, 2**24), 2**24)] + windows.strip_cuts(rng, day_set.plan, day_set.starts, day_set.count, 3000)
    else:
        cuts = windows.random_day_cuts(rng, day_set.plan, day_set.count)
    return window_line(rng, "daycount", cuts)


# ---- lines in error


def wrong_line(rng, console):
    """A line with a byte changed, cut or put in, or cut off, or one in which all is well: a comment, blanks."""
    line = bytearray(call_line(rng, console))
    place = rng.randrange(len(line))
    end = rng.choice((place, place, place + 1, place + 1, len(line)))
    line[place:end] = rng.choice((b"", b"#", b" ", b"\t", b"x", b"9", b"\r", b"\xff", b"\0"))
    return bytes(line)


def call_line(rng, console):
    """A call whose numbers may grow a digit and still be answered in no time."""
    return rng.choice((reading, opening, jump, step, second, slot, write, making, day_jump, day_step))(rng, console)
