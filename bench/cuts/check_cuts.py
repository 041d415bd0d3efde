"""Random cuts, values, offers, sweeps with repairs and flat duals, by plain functions over Python's fractions, and what a program
of the crates of cuts answers to the same lines."""
import random
import subprocess
import sys
from fractions import Fraction

TOP = 2**127
GONE = 2**32 - 1
rng = random.Random(2026)


class Passes(Exception):
    """An operation whose result has a part above 2^127 - 1 in size."""


def fits(value):
    return abs(value.numerator) < TOP and value.denominator < TOP


def result(op, a, b, value):
    if not fits(value):
        raise Passes(f"passed {op} {a} {b}")
    return value


def product(a, b):
    return result("mul", a, b, a * b)


def difference(a, b):
    return result("sub", a, b, a - b)


def plus_product(x, a, b):
    """A step: only its value has to fit. Where it doesn't, the product is named if that doesn't fit, else the sum."""
    return x + a * b if fits(x + a * b) else result("add", x, product(a, b), x + a * b)


def less_product(x, a, b):
    return x - a * b if fits(x - a * b) else result("sub", x, product(a, b), x - a * b)


class Node:
    """The data of a node: versions, costs, rows (number, low, high, entries), bounds and shares."""

    def __init__(self, number, costs, rows, bounds, shares):
        self.number, self.costs, self.rows, self.bounds, self.shares = number, costs, rows, bounds, shares
        self.rows_version = self.costs_version = 0

    def line(self):
        words = ["datum", self.number, self.rows_version, self.costs_version, *form_words(self.costs), len(self.rows)]
        for row, low, high, entries in self.rows:
            words += [row, end(low), end(high), *form_words(entries)]
        words.append(len(self.bounds))
        for column, low, high in self.bounds:
            words += [column, end(low), end(high)]
        words.append(len(self.shares))
        for child, share in self.shares:
            words += [child, share]
        return " ".join(map(str, words))


class Cut:
    def __init__(self, node, kind, rows_version, costs_version, multipliers, used, constant, form):
        self.node, self.kind, self.multipliers, self.used = node, kind, multipliers, used
        self.rows_version, self.costs_version = rows_version, costs_version
        self.constant, self.form = constant, form

    def support(self):
        own = {(self.node, 0, self.rows_version)}
        if self.kind == "bound":
            own.add((self.node, 1, self.costs_version))
        for _, cut in self.used:
            own |= set(cut.support())
        return sorted(own)

    def rests(self, touch):
        return any(stamp_rests(stamp, touch) for stamp in self.support())

    def words(self):
        stamps = [word for node, part, version in self.support() for word in (node, PARTS[part], version)]
        entries = [word for column in sorted(self.form) for word in (column, self.form[column])]
        return " ".join(map(str, [";", self.constant, "form", *entries, "on", *stamps]))

    def at(self, trial):
        total = self.constant
        for column in sorted(self.form):
            total = plus_product(total, self.form[column], trial.get(column, Fraction(0)))
        return total


PARTS = ["rows", "costs", "gone"]


def stamp_rests(stamp, touch):
    node, part, version = stamp
    return node == touch[0] and (touch[1] == 2 or (part == touch[1] and version < touch[2]))


def end(value):
    return "none" if value is None else value


def form_words(form):
    return [len(form)] + [word for column in sorted(form) for word in (column, form[column])]


def used_end(low, high, number):
    """The end that a multiplier or a reduced cost uses; 0 where it is 0."""
    return low if number > 0 else high if number < 0 else Fraction(0)


def column_sum(node, multipliers, used, column, start):
    total = start
    for row, _, _, entries in node.rows:
        if column in entries:
            total = less_product(total, entries[column], multipliers.get(row, Fraction(0)))
    for weight, cut in used:
        total = plus_product(total, weight, cut.form.get(column, Fraction(0)))
    return total


def made(node, kind, multipliers, used):
    own = [column for column, _, _ in node.bounds]
    reduced = []
    for column, low, high in node.bounds:
        cost = node.costs.get(column, Fraction(0)) if kind == "bound" else Fraction(0)
        reduced.append((low, high, column_sum(node, multipliers, used, column, cost)))
    columns = {column for _, _, _, entries in node.rows for column in entries} | {column for _, cut in used for column in cut.form}
    form = {}
    for column in sorted(columns - set(own)):
        # less the rows' entries times their multipliers: the form's sign is that of the sum
        form[column] = column_sum(node, multipliers, used, column, Fraction(0))
    form = {column: value for column, value in form.items() if value}
    total, good = Fraction(0), True
    terms = [(multipliers.get(row, Fraction(0)), low, high) for row, low, high, _ in node.rows]
    terms += [(value, low, high) for low, high, value in reduced]
    for number, low, high in terms:
        side = used_end(low, high, number)
        if side is None:
            good = False
        else:
            total = plus_product(total, number, side)
    for weight, cut in used:
        total = plus_product(total, weight, cut.constant)
    if not good:
        return None
    return Cut(node.number, kind, node.rows_version, node.costs_version, multipliers, used, total, form)


def repaired(cut, node, row, by, version):
    if not cut.rests((node, 0, version)):
        return cut
    used = [(weight, repaired(one, node, row, by, version)) for weight, one in cut.used]
    constant, rows_version = cut.constant, cut.rows_version
    if cut.node == node and cut.rows_version == version - 1:
        constant = plus_product(constant, cut.multipliers.get(row, Fraction(0)), by)
        rows_version = version
    for (weight, before), (_, after) in zip(cut.used, used):
        if after.constant != before.constant:
            constant = plus_product(constant, weight, difference(after.constant, before.constant))
    return Cut(cut.node, cut.kind, rows_version, cut.costs_version, cut.multipliers, used, constant, cut.form)


def repair(cut, touch, shift):
    """The repair, or None where the cut goes."""
    if shift is None or cut.rests((touch[0], 0, touch[2] - 1)):
        return None
    try:
        return repaired(cut, touch[0], *shift, touch[2])
    except Passes:
        return None


def flat(cut):
    numbers = {}

    def add(one, weight):
        for row in sorted(one.multipliers):
            place = one.node, row
            numbers[place] = plus_product(numbers.get(place, Fraction(0)), weight, one.multipliers[row])
        for share, below in one.used:
            add(below, product(weight, share))

    add(cut, Fraction(1))
    return [word for place in sorted(numbers) if numbers[place] for word in (*place, numbers[place])]


class Pool:
    def __init__(self):
        self.cuts, self.known, self.number = [], [], 0

    def offer(self, cut, trial):
        for stamp in cut.support():
            if any(stamp_rests(stamp, touch) for touch in self.known):
                node, part, version = stamp
                gone = any(touch[0] == node and touch[1] == 2 for touch in self.known)
                newest = max([0] + [touch[2] for touch in self.known if touch[:2] == (node, part)])
                return f"stale {node} {PARTS[part]} {version} {GONE if gone else newest}"
        value = cut.at(trial)
        best = Fraction(0) if cut.kind == "ray" else None
        for held in self.cuts:
            if held.kind == cut.kind:
                there = held.at(trial)
                best = there if best is None or there > best else best
        if best is not None and value <= best:
            return f"notneeded {best}"
        self.cuts.append(cut)
        self.number += 1
        return "added"

    def sweep(self, touch, shift):
        kept, gone, mended = [], 0, 0
        for cut in self.cuts:
            if not cut.rests(touch):
                kept.append(cut)
                continue
            new = repair(cut, touch, shift)
            if new is None:
                gone += 1
            else:
                mended += 1
                kept.append(new)
        self.cuts, self.known, self.number = kept, self.known + [touch], self.number + 1
        return " ".join(["swept", str(gone), str(mended), str(self.number)] + [cut.words() for cut in kept])


def number(wide):
    kind = rng.random()
    if kind < wide:
        size, below = (rng.choice((40, 63, 90, 120, 126)) for _ in range(2))
        return Fraction(rng.choice((1, -1)) * rng.getrandbits(size) or 1, rng.getrandbits(below) or 1)
    if kind < 0.6:
        return Fraction(rng.choice((1, -1)) * rng.randrange(1, 10))
    return Fraction(rng.choice((1, -1)) * rng.randrange(1, 100), rng.randrange(1, 12))


def form(columns, wide, most=3):
    return {column: number(wide) for column in rng.sample(columns, min(len(columns), rng.randrange(most + 1)))}


def interval(wide):
    low, high = (None if rng.random() < 0.15 else number(wide) for _ in range(2))
    return (high, low) if low is not None and high is not None and low > high else (low, high)


def bounds(columns, wide):
    return [(column, *interval(wide)) for column in columns]


def node(number_of, own, earlier, children, wide):
    rows = [(row, *interval(wide), form(own + earlier, wide, 4)) for row in range(rng.randrange(1, 4))]
    shares = [(child, Fraction(rng.randrange(1, 5), rng.choice((4, 5, 7)) * len(children))) for child in children]
    return Node(number_of, form(own, wide), rows, bounds(own, wide), shares)


def episode(lines, answers):
    """A root, node 1 below it with the pool, and leaves below that."""
    wide = rng.choice((0, 0, 0.02, 0.2))
    leaves = list(range(2, rng.randrange(3, 6)))
    root = node(0, [0, 1], [], [1], wide)
    middle = node(1, [10, 11, 12], [0, 1], leaves, wide)
    below = {leaf: node(leaf, [20, 21], [0, 1, 10, 11, 12], [], wide) for leaf in leaves}
    nodes = {0: root, 1: middle, **below}
    pool, cuts = Pool(), []

    def ask(line, answer):
        lines.append(line)
        if answer is not None:
            answers.append((line, answer))

    def answered(line, call):
        try:
            found = call()
        except Passes as passes:
            found = str(passes)
        ask(line, found)
        return found

    def cut(of, kind, choices):
        used = [(number_above(wide), rng.choice(choices)) for _ in range(rng.randrange(4))] if choices else []
        multipliers = form([row for row, _, _, _ in of.rows], wide)
        ask(of.line(), None)
        words = ["cut", kind, of.number, of.rows_version, of.costs_version, *form_words(multipliers), len(used)]
        for weight, place in used:
            words += [weight, place]
        line = " ".join(map(str, words))
        try:
            new = made(of, kind, multipliers, [(weight, cuts[place]) for weight, place in used])
        except Passes as passes:
            ask(line, str(passes))
            return
        ask(line, "notgood" if new is None else "cut " + new.words())
        if new is not None:
            cuts.append(new)

    ask("pool 1", None)
    for _ in range(rng.randrange(2, 6)):
        for _ in range(rng.randrange(3, 12)):
            leaf_cuts = [place for place, one in enumerate(cuts) if one.node > 1]
            middle_cuts = [place for place, one in enumerate(cuts) if one.node == 1]
            choice = rng.random()
            if choice < 0.2:
                cut(below[rng.choice(leaves)], rng.choice(("bound", "bound", "ray")), [])
            elif choice < 0.55:
                cut(middle, rng.choice(("bound", "bound", "ray")), leaf_cuts)
            elif choice < 0.6:
                cut(root, "bound", middle_cuts)
            elif cuts:
                place = rng.randrange(len(cuts))
                trial = form([0, 1, 10, 11, 12], wide, 5)
                words = " ".join(map(str, [place, *form_words(trial)]))
                if choice < 0.65:
                    answered("at " + words, lambda: f"value {cuts[place].at(trial)}")
                elif choice < 0.75:
                    answered(f"flat {place}", lambda: " ".join(map(str, ["flat", *flat(cuts[place])])))
                elif middle_cuts:
                    place = rng.choice(middle_cuts[-8:])
                    words = " ".join(map(str, [place, *form_words(trial)]))
                    answered("offer " + words, lambda: pool.offer(cuts[place], trial))
        touched = nodes[rng.choice([1, *leaves])]
        part = rng.choice((0, 0, 0, 1, 2) if touched.number > 1 else (0, 0, 1))
        shift, version = None, 1
        if part == 0:
            version = touched.rows_version = touched.rows_version + 1
            if rng.random() < 0.8:
                shift = rng.choice(touched.rows)[0], number(wide)
                touched.rows = [(row, *moved(low, high, shift[1] if row == shift[0] else 0), entries) for row, low, high, entries in
                                touched.rows]
        elif part == 1:
            version = touched.costs_version = touched.costs_version + 1
        words = ["sweep", touched.number, PARTS[part], version, *([0] if shift is None else [1, *shift])]
        ask(" ".join(map(str, words)), pool.sweep((touched.number, part, version), shift))
        cuts.extend(pool.cuts)


def moved(low, high, by):
    """Both ends of an interval, moved where they fit then."""
    ends = [None if side is None else side + by for side in (low, high)]
    return ends if all(side is None or fits(side) for side in ends) else (low, high)


def number_above(wide):
    return abs(number(wide))


def main():
    program, count, work = sys.argv[1], int(sys.argv[2]), sys.argv[3]
    lines, answers = [], []
    while len(answers) < count:
        episode(lines, answers)
    with open(f"{work}/cases", "w") as cases:
        cases.write("\n".join(lines) + "\n")
    said = subprocess.run([program], cwd=work, capture_output=True, text=True, check=True).stdout.splitlines()
    wrong = 0
    kinds = {}
    for (line, wanted), given in zip(answers, said):
        kind = line.split()[0] + ": " + wanted.split()[0]
        kinds[kind] = kinds.get(kind, 0) + 1
        if wanted != given.rstrip():
            wrong += 1
            if wrong < 10:
                print(f"{line}\n  wanted {wanted}\n  given  {given}")
    for kind in sorted(kinds):
        print(f"{kinds[kind]:8} {kind}")
    print(f"{len(answers)} answers, {wrong} wrong, {len(said)} given")
    return 1 if wrong or len(said) != len(answers) else 0


if __name__ == "__main__":
    sys.exit(main())
