"""Compares the console's answers with the reference's, on the stored tests, on random scripts, on openings, on the axes of runs with unequal starts,
on counts by strips over long runs, on short buffers at the end of a run, on slots of indexes in a row and on states whose family or starts are set,
and tries how its input and output end.

Usage: compare_console.py CONSOLE SEED."""
import random
import subprocess
import sys
from collections import Counter
from itertools import compress, product
from pathlib import Path

import console
import plans
import reference
import scripts
import states
import windows
from reference import FAMILIES, HALTON_FAMILIES, READING_REFUSALS, SOBOL

SCRIPTS = 1000
OPENINGS = 60
UNEQUAL_RUNS = 60
LONG_RUNS = 60
SHORT_RUNS = 60
ROWS = 60
STATES = 60


def run(program, script):
    return subprocess.run([program], input=script, stdout=subprocess.PIPE, check=True).stdout.decode().split("\n")


def compare(what, script, ours, theirs):
    for place, (said, meant) in enumerate(zip(ours, theirs)):
        if said != meant:
            sys.exit(f"{what}: answer {place + 1} is\n  {said}\nand not\n  {meant}\nafter the lines\n{script.decode('latin-1')}")
    if len(ours) != len(theirs):
        sys.exit(f"{what}: {len(ours)} answers and not {len(theirs)}")


def code_of(answer):
    """The first two words of an answer."""
    return " ".join(answer.split()[:2])


def compare_codes(program, what, lines, codes):
    """The answers to these lines have the codes that are given, and are the reference's."""
    script = "\n".join(lines).encode()
    answers = run(program, script)
    compare(what, script, [code_of(answer) for answer in answers], codes + [""])
    compare(what, script, answers, console.answers(script).split("\n"))


def reading(plan):
    return f"read {plans.bytes_of(plan).hex()}"


def opening(count, starts):
    return " ".join(map(str, ("open", count, *starts)))


def stored(program):
    """The stored tests say what the reference says."""
    for folder in ("console", "console_marked"):
        script = Path("crates", folder, "stdin").read_bytes()
        compare(folder, b"", run(program, script), console.answers(script).split("\n"))


def ends(program):
    """A line is answered before the next is there; an input that cannot be read and an output that cannot be written are said."""
    with subprocess.Popen([program], stdin=subprocess.PIPE, stdout=subprocess.PIPE) as talk:
        for line, answer in ((b"read 0808\n", b"read 0\n"), (b"jump 6 1\n", b"jump 0 1610612736\n")):
            talk.stdin.write(line)
            talk.stdin.flush()
            if talk.stdout.readline() != answer:
                sys.exit(f"{line} is not answered at once by {answer}")
        talk.stdin.close()
    with open("/dev/full", "wb") as full:
        said = subprocess.run([program], input=b"state\n", stdout=full, stderr=subprocess.PIPE, check=True).stderr
    if said != b"the output is not whole: a write failed\n":
        sys.exit(f"a failed write is said by {said}")
    with open("/proc/self/mem", "rb") as unreadable:
        said = subprocess.run([program], stdin=unreadable, stdout=subprocess.PIPE, check=True).stdout
    if said != b"line 1: the input cannot be read to its end\n":
        sys.exit(f"an input that cannot be read is said by {said}")


def openings(program, rng):
    """Lists of starts are taken or refused as they should be, in a foreign state by 15, and the state shows what they leave; lines in error."""
    for turn in range(OPENINGS):
        plan = plans.random_plan(rng)
        cases = lists_of_starts(rng, plan)
        lines = [opening(count, starts) for _, count, starts in cases] + [reading(plan)]
        codes = ["open 15"] * len(cases) + ["read 0"]
        for code, count, starts in cases:
            lines += [opening(count, starts), "state"]
            codes += [f"open {code}", f"state {plan.family}"]
        compare_codes(program, f"openings {turn}", lines, codes)
    faults = "the number of words after the first is 0", "word 2 is no decimal number", "word 4 is no decimal number"
    said = [f"line {n}: expected open COUNT START .., but {fault}" for n, fault in enumerate(faults, 1)]
    script = b"open\nopen x 0\nopen 1 0 x"
    compare("openings in error", script, run(program, script), said + [""])


def lists_of_starts(rng, plan):
    """Counts and lists of starts, each after the number that refuses it, or 0."""
    axes, count = len(plan.axes), rng.randint(1, 9)
    last = 2**32 - count
    start, place = rng.randint(1, last - 1), rng.randrange(axes)
    one = [start] * axes
    beside, beyond = (one[:place] + [other] + one[place + 1 :] for other in (start + rng.choice((-1, 1)), last + 1))
    return [
        (0, count, one),
        (17 if plan.family == SOBOL and axes > 1 else 0, count, beside),
        (0, count, [last] * axes),
        (17, count, []),
        (17, 2**64 - 1, []),
        (17, count, one[1:]),
        (17, count, one + [last]),
        (17, count, [0] * 400),
        (11, count, beyond),
        (11, count, one[2:] + [last + 1]),
        (11, count, beside + [last + 1]),
        (0, 0, [2**32] * axes),
        (11, 0, [2**32 + 1] * axes),
        (0, 2**32, [0] * axes),
        (11, 2**32, one),
    ]


def columns(program, rng):
    """The axes of a run with unequal starts have the numerators of jumps to their own indexes."""
    for turn in range(UNEQUAL_RUNS):
        count, plan = rng.randint(1, 40), plans.random_plan(rng, rng.choice(HALTON_FAMILIES), rng.randint(2, 6))
        axes, starts = len(plan.axes), rng.sample(range(2**32 - count), len(plan.axes))
        lines = [reading(plan), opening(count, starts), f"step {axes}", f"block {count * axes}"]
        lines += [f"jump {start + t} {axes}" for t in range(count) for start in starts]
        script = "\n".join(lines).encode()
        answers = run(program, script)
        compare(f"unequal run {turn}", script, answers, console.answers(script).split("\n"))
        served = answers[2].split()[2:] + answers[3].split()[3 : 3 + (count - 1) * axes]
        if served != [jump.split()[2 + place % axes] for place, jump in enumerate(answers[4:-1])]:
            sys.exit(f"unequal run {turn}: {plan} from {starts} on does not have the points of each axis's own indexes")


def strips(program, rng):
    """Counts by strips: over runs that the reference walks beside both counts, and over long ones that it counts by strips too."""
    for turn in range(LONG_RUNS):
        is_walked = turn % 3 == 0
        count = rng.randint(8192, 9000) if is_walked else rng.choice((rng.randint(10**6, 2**32 - 1), 2**32 - 1, 2**32))
        plan = plans.random_plan(rng, rng.choice(HALTON_FAMILIES), rng.randint(1, 3))
        starts = plans.random_starts(rng, plan, count)
        reference_count = reference.count_inside if is_walked else reference.count_by_strips
        lines, answers = [reading(plan), opening(count, starts)], ["read 0", "open 0"]
        for _ in range(4):
            cuts = windows.strip_cuts(rng, plan, starts, count, 100000)
            words = " ".join(f"{u} {q}" for u, q in cuts)
            inside, bound = reference_count(plan, starts, count, cuts), reference.bound(plan, count)
            for name in ("count", "strips") if is_walked else ("strips",):
                lines.append(f"{name} {words}")
                answers.append(f"{name} 0 {inside} {bound}")
        script = "\n".join(lines).encode()
        compare(f"long run {turn}", script, run(program, script), answers + [""])


def short_buffers(program, rng):
    """Where no point is left, a buffer shorter than one gives 13, in each call, and 12 comes from one point on. The reference says so too."""
    for turn in range(SHORT_RUNS):
        plan, count = plans.random_plan(rng), rng.randint(0, 3)
        axes = len(plan.axes)
        widths = {"step": axes, "place": axes, "block": axes, "daystep": axes + 1, "dayblock": axes + 1}
        lines = [reading(plan), opening(count, plans.random_starts(rng, plan, count)), f"day {count}"]
        lines += [f"block {3 * axes}", f"dayblock {3 * axes + 3}"] * (count > 0)
        codes = [line.split()[0] + " 0" for line in lines]
        for room in range(axes + 3):
            lines += [f"{name} {room}" for name in widths]
            codes += [f"{name} {13 if room < width else 12}" for name, width in widths.items()]
        compare_codes(program, f"short buffers {turn}", lines, codes)


def shares(program, rng):
    """Over b^k indexes in a row every slot of an axis of base b comes up equally often, where their number divides b^k."""
    for turn in range(ROWS):
        plan = plans.random_plan(rng, rng.choice(HALTON_FAMILIES))
        axis = rng.randint(1, len(plan.axes))
        base = plan.axes[axis - 1]
        size = base ** rng.randint(1, reference.digit_count(base, 2000 // base))
        slots = rng.choice([n for n in range(1, size + 1) if size % n == 0])
        first = rng.choice((0, rng.randint(0, 2**32 - size), 2**32 - size))
        lines = [reading(plan)] + [f"slot {first + t} {axis} {slots}" for t in range(size)]
        script = "\n".join(lines).encode()
        answers = run(program, script)
        compare(f"row {turn}", script, answers, console.answers(script).split("\n"))
        if Counter(answers[1:-1]) != {f"slot 0 {slot}": size // slots for slot in range(slots)}:
            sys.exit(f"row {turn}: {size} indexes from {first} on are not shared evenly by {slots} slots of base {base}")


def heads(program):
    """Each byte of family 3 alone is refused by 1 or 3, and never by 2."""
    read = plans.kocis_heads()
    script = "\n".join(f"read {data.hex()}" for data, _ in read).encode()
    compare("first bytes", script, run(program, script), [f"read {code}" for _, code in read] + [""])


def families(program, rng):
    """A state without a run stays genuine where its family is set to another that has bases too, and else is foreign."""
    for turn in range(STATES):
        plan = plans.random_plan(rng)
        kind = HALTON_FAMILIES if plan.family in HALTON_FAMILIES else (plan.family,)
        lines, codes = [reading(plan)], ["read 0"]
        for family in (*FAMILIES, len(FAMILIES), 2**64 - 1):
            code = 0 if family in kind else 15
            lines += [f"poke 0 {family}", "write 71", f"jump {plans.random_index(rng)} 6"]
            codes += ["poke 0", f"write {code}", f"jump {code}"]
        compare_codes(program, f"families {turn}", lines, codes)


def starts_set(program, rng):
    """Where no point is left a start may be set to another that an opening takes. Any other start makes a state foreign, also one behind the last
    axis's, and every start but 0 a day set."""
    for turn in range(STATES):
        plan, count = plans.random_plan(rng), rng.randint(1, 3)
        axes = len(plan.axes)
        lines, codes = [reading(plan), opening(count, [0] * axes), f"day {count}"], ["read 0", "open 0", "day 0"]
        for is_over in (False, True):
            lines += [f"block {count * axes}", f"dayblock {count * axes + count}"] * is_over
            codes += ["block 0", "dayblock 0"] * is_over
            for place, start in product(range(6), (1, 2**32 - count, 2**32 - count + 1)):
                is_taken = is_over and place < axes and start + count <= 2**32 and (plan.family != SOBOL or axes == 1)
                there = states.STARTS + place
                lines += [f"poke {there} {start}", f"daypoke {there} {start}", "write 71", "dayjump 0 7", f"poke {there} 0", f"daypoke {there} 0"]
                codes += [f"poke {there}", f"daypoke {there}", f"write {0 if is_taken else 15}", "dayjump 15", f"poke {there}", f"daypoke {there}"]
        compare_codes(program, f"starts {turn}", lines + ["write 71", "dayjump 0 7"], codes + ["write 0", "dayjump 0"])


def random_scripts(program, rng):
    """Scripts of ten parts each; how often each call gave each code, and how often while the state's starts were unequal."""
    met, met_unequal = Counter(), Counter()
    for turn in range(SCRIPTS):
        lines, answers, unequal = scripts.script(rng, 10)
        script = b"".join(line + b"\n" for line in lines)
        said = [answer for answer in answers if answer is not None]
        compare(f"script {turn}", script, run(program, script), said + [""])
        met.update(code_of(answer) for answer in said if answer.split()[0] in EVERY)
        met["lines in error"] += sum(answer.startswith("line") for answer in said)
        met_unequal.update(code_of(answer) for answer in compress(answers, unequal) if answer is not None)
    return met, met_unequal


EVERY = {
    "read": [0, *READING_REFUSALS],
    "write": [0, 13, 15],
    "open": [0, 11, 15, 17],
    "jump": [0, 11, 13, 15],
    "second": [0, 11, 15],
    "slot": [0, 11, 15, 16],
    "step": [0, 12, 13, 15],
    "place": [0, 12, 13, 15],
    "block": [0, 12, 13, 15],
    "count": [0, 14, 15],
    "strips": [0, 14, 15],
    "day": [0, 11, 15],
    "dayjump": [0, 11, 13, 15],
    "daystep": [0, 12, 13, 15],
    "dayblock": [0, 12, 13, 15],
    "daycount": [0, 14, 15],
}
UNEQUAL = ["step 0", "place 0", "block 0", "count 0", "strips 0"]  # what is met with unequal starts too


def all_met(what, met, answers, least):
    for answer in answers:
        if met[answer] < least:
            sys.exit(f"{what}: the answer {answer} was only met {met[answer]} times")


def main():
    program, seed = sys.argv[1], sys.argv[2]
    print(f"console: seed {seed}")
    stored(program)
    ends(program)
    openings(program, random.Random(seed))
    columns(program, random.Random(seed))
    strips(program, random.Random(seed))
    short_buffers(program, random.Random(seed))
    shares(program, random.Random(seed))
    heads(program)
    families(program, random.Random(seed))
    starts_set(program, random.Random(seed))
    met, met_unequal = random_scripts(program, random.Random(seed))
    every = [f"{name} {code}" for name, codes in EVERY.items() for code in codes]
    all_met("random scripts", met, every, 3)
    all_met("unequal starts", met_unequal, UNEQUAL, 100)
    others = met.keys() - {*every, "lines in error"}
    if others:
        sys.exit(f"answers that no call gives were met: {', '.join(sorted(others))}")
    print(f"console: {sum(met.values())} answers of {SCRIPTS} random scripts are the reference's, {met['lines in error']} of them of lines in error")
    print(f"console: so are the openings of {OPENINGS} plans, and the counts by strips over {LONG_RUNS} long runs")
    print(f"console: and each axis of {UNEQUAL_RUNS} runs with unequal starts reads its own indexes")
    print(f"console: and short buffers at the end of {SHORT_RUNS} runs and day sets are refused by 13")
    print(f"console: and slots share {ROWS} rows of indexes evenly")
    print(f"console: and {STATES} states are genuine in the families of their axes and with the starts of openings, and no others")


main()
