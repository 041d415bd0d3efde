"""Programs for bench/answers/run, each a function of its numbers alone: cores of several kinds, and programs on trees.

A program is kept in a form of its own, from which the files that Tidzgheba reads are written, and the deterministic equivalent that
esolver reads; so what is compared rests on no part of Tidzgheba.
"""
import itertools
import random
from fractions import Fraction


class Program:
    """Columns and rows with their periods, and in each period behind the first the cases of its blocks."""

    def __init__(self):
        self.columns, self.rows, self.blocks = [], [], []
        self.entries = {}

    def row(self, kind, name, right, period=0, reach=None):
        self.rows.append((kind, name, str(right), period, reach))

    def column(self, name, cost, entries, low="0", high=None, period=0):
        """`low` is None for a free column."""
        self.columns.append((name, str(cost), None if low is None else str(low), None if high is None else str(high), period))
        self.entries[name] = [(row, str(value)) for row, value in entries]

    def block(self, period, cases):
        """Cases are probabilities with right sides by row."""
        self.blocks.append((period, [(str(chance), {row: str(right) for row, right in rights.items()}) for chance, rights in cases]))

    def periods(self):
        return 1 + max([it[4] for it in self.columns] + [it[3] for it in self.rows])

    def core(self):
        text = ["NAME MADE", "ROWS", " N COST"] + [f" {kind} {name}" for kind, name, *_ in self.rows] + ["COLUMNS"]
        for name, cost, *_ in self.columns:
            text.append(f" {name} COST {cost}")
            text += [f" {name} {row} {value}" for row, value in self.entries[name]]
        text += ["RHS"] + [f" RHS {name} {right}" for _, name, right, *_ in self.rows]
        ranges = [f" RNG {name} {reach}" for _, name, _, _, reach in self.rows if reach is not None]
        text += ["RANGES"] * bool(ranges) + ranges
        bounds = []
        for name, _, low, high, _ in self.columns:
            bounds += [f" FR BND {name}"] * (low is None) + [f" LO BND {name} {low}"] * (low not in (None, "0"))
            bounds += [f" UP BND {name} {high}"] * (high is not None)
        return "\n".join(text + ["BOUNDS"] * bool(bounds) + bounds + ["ENDATA", ""])

    def texts(self):
        """The texts of the files: core, time and stoch, or the core alone."""
        if self.periods() == 1:
            return [self.core()]
        times = ["TIME MADE", "PERIODS EXPLICIT"] + [f" P{at}" for at in range(self.periods())]
        times += ["ROWS"] + [f" {name} P{period}" for _, name, _, period, _ in self.rows]
        times += ["COLUMNS"] + [f" {it[0]} P{it[4]}" for it in self.columns] + ["ENDATA", ""]
        stoch = ["STOCH MADE", "BLOCKS DISCRETE"]
        for number, (period, cases) in enumerate(self.blocks):
            for chance, rights in cases:
                stoch.append(f" BL B{number} P{period} {chance}")
                stoch += [f" RHS {row} {right}" for row, right in rights.items()]
        return [self.core(), "\n".join(times), "\n".join(stoch + ["ENDATA", ""])]

    def flat(self):
        """The deterministic equivalent, in the form that esolver reads."""
        cost, rows, bounds = [], [], []
        blocks = sorted(self.blocks, key=lambda it: it[0])
        column_at = {it[0]: it[4] for it in self.columns}
        rows_with = {}
        for name, entries in self.entries.items():
            for row, value in entries:
                rows_with.setdefault(row, []).append((name, Fraction(value)))
        for period in range(self.periods()):
            above = [it for it in blocks if it[0] <= period]
            for choice in itertools.product(*(range(len(it[1])) for it in above)):
                def node(at):
                    return "n" + "_".join([str(at)] + [str(k) for k, it in zip(choice, above) if it[0] <= at])
                chance, changed = Fraction(1), {}
                for k, (_, cases) in zip(choice, above):
                    chance *= Fraction(cases[k][0])
                    changed.update(cases[k][1])
                for name, price, low, high, _ in [it for it in self.columns if it[4] == period]:
                    here = f"{name}{node(period)}"
                    cost.append((chance * Fraction(price), here))
                    bounds.append(f" {here} free" if low is None and high is None else
                                  f" {'-inf' if low is None else Fraction(low)} <= {here} <= {'inf' if high is None else Fraction(high)}")
                for kind, name, right, _, reach in [it for it in self.rows if it[3] == period]:
                    terms = [(value, f"{column}{node(column_at[column])}") for column, value in rows_with.get(name, []) if value]
                    low, high = interval(kind, Fraction(changed.get(name, right)), None if reach is None else Fraction(reach))
                    if low is not None and low == high:
                        rows.append((terms, "=", low))
                    else:
                        rows += [(terms, ">=", low)] * (low is not None) + [(terms, "<=", high)] * (high is not None)

        def shown(terms):
            words = [f"{'-' if value < 0 else '+'} {abs(value)} {name}" for value, name in terms] or ["+ 0 nothing"]
            # esolver takes no line of any length
            return "\n  ".join(" ".join(words[at:at + 20]) for at in range(0, len(words), 20))
        text = ["Problem", " flat", "Minimize", f" cost: {shown(cost)}", "Subject To"]
        text += [f" r{k}: {shown(terms) if terms else '+ 1 nothing'} {sign} {end}" for k, (terms, sign, end) in enumerate(rows)]
        return "\n".join(text + [" last: + 1 nothing = 0", "Bounds", *bounds, "End", ""])


def interval(kind, right, reach):
    """The ends of a row, None where there is none."""
    if kind == "L":
        return (None if reach is None else right - abs(reach), right)
    if kind == "G":
        return (right, None if reach is None else right + abs(reach))
    if reach is None:
        return (right, right)
    return (right, right + reach) if reach >= 0 else (right + reach, right)


def decimal(chance, digits, low, high):
    """A number of so many digits behind the point."""
    return "%.*f" % (digits, chance.randint(round(low * 10**digits), round(high * 10**digits)) / 10**digits)


# ---- cores

def transport(rows, digits, chance):
    """Sources with limits, customers with a demand each, eight arcs with capacities to each customer."""
    program = Program()
    sources = max(2, rows // 8)
    demands = [chance.randint(5, 50) for _ in range(rows - sources)]
    for source in range(sources):
        program.row("L", f"S{source}", 2 * sum(demands) // sources + 60)
    for customer, demand in enumerate(demands):
        program.row("E", f"D{customer}", demand)
    for customer in range(len(demands)):
        for source in chance.sample(range(sources), min(sources, 8)):
            cost = decimal(chance, digits, 1, 30)
            program.column(f"X{source}_{customer}", cost, [(f"S{source}", 1), (f"D{customer}", 1)], high=chance.randint(10, 40))
        program.column(f"O{customer}", 200, [(f"D{customer}", 1)])
    return program


def assignment(rows, digits, chance):
    """Persons and tasks, eight tasks for each person."""
    program = Program()
    count = rows // 2
    for name in "PT":
        for at in range(count):
            program.row("E", f"{name}{at}", 1)
    for person in range(count):
        for task in sorted(set(chance.sample(range(count), min(count, 8))) | {person}):
            program.column(f"X{person}_{task}", decimal(chance, digits, 1, 99), [(f"P{person}", 1), (f"T{task}", 1)])
    return program


def covering(rows, digits, chance, columns=None):
    """Rows that are covered by columns of five entries, each at most once, or at a high cost."""
    program = Program()
    for row in range(rows):
        program.row("G", f"R{row}", 1)
    for column in range(columns or 2 * rows):
        entries = [(f"R{row}", 1) for row in sorted(chance.sample(range(rows), min(rows, 5)))]
        program.column(f"X{column}", decimal(chance, digits, 1, 9), entries, high=1)
    for row in range(rows):
        program.column(f"Y{row}", 20, [(f"R{row}", 1)])
    return program


def production(rows, digits, chance):
    """Five products over periods of time, with stocks and two capacities."""
    program = Program()
    products, times = range(5), max(1, rows // 7)
    for time in range(times):
        for product in products:
            program.row("E", f"B{time}_{product}", decimal(chance, digits, 5, 40))
        for kind in range(2):
            program.row("L", f"C{time}_{kind}", decimal(chance, digits, 90, 160))
    use = [[decimal(chance, digits, 0.3, 2) for _ in products] for _ in range(2)]
    for time in range(times):
        for product in products:
            balance = (f"B{time}_{product}", 1)
            program.column(f"M{time}_{product}", decimal(chance, digits, 2, 9),
                           [balance] + [(f"C{time}_{kind}", use[kind][product]) for kind in range(2)])
            later = [(f"B{time + 1}_{product}", 1)] if time + 1 < times else []
            program.column(f"I{time}_{product}", decimal(chance, digits, 0.1, 0.9), [(f"B{time}_{product}", -1)] + later, high=30)
            program.column(f"O{time}_{product}", decimal(chance, digits, 20, 30), [balance])
    return program


def multicommodity(rows, digits, chance):
    """Four commodities over a network whose arcs have capacities for all together."""
    program = Program()
    count = max(4, rows // 7)
    arcs = {(at, to) for at in range(count) for to in chance.sample(range(count), 3) if at != to}
    arcs = sorted(arcs | {(at, (at + 1) % count) for at in range(count)})
    flows = [(chance.randrange(count), chance.randrange(count), chance.randint(2, 9)) for _ in range(4)]
    for kind, (start, end, amount) in enumerate(flows):
        for at in range(count):
            program.row("E", f"N{kind}_{at}", 0 if start == end else amount if at == start else -amount if at == end else 0)
    for arc in range(len(arcs)):
        program.row("L", f"C{arc}", 12)
    for kind in range(4):
        for arc, (at, to) in enumerate(arcs):
            entries = [(f"N{kind}_{at}", 1), (f"N{kind}_{to}", -1), (f"C{arc}", 1)]
            program.column(f"F{kind}_{arc}", decimal(chance, digits, 1, 9), entries)
    for kind, (start, end, _) in enumerate(flows):
        if start != end:
            program.column(f"O{kind}", 100, [(f"N{kind}_{start}", 1), (f"N{kind}_{end}", -1)])
    return program


CORES = {it.__name__: it for it in (transport, assignment, covering, production, multicommodity)}


def core(kind, rows, digits, seed, **more):
    return CORES[kind](rows, digits, random.Random(f"{kind} {rows} {digits} {seed}"), **more)


# ---- small cores of all kinds of rows and bounds

def any_core(seed):
    """Up to nine rows of all kinds with ranges, and up to twelve columns with all kinds of bounds, many of them degenerate."""
    chance = random.Random(f"any {seed}")
    program = Program()
    rows, is_degenerate, digits = chance.randint(1, 9), chance.random() < 0.5, chance.choice([0, 0, 1, 2])
    for row in range(rows):
        kind = chance.choice("LGEL")
        right = chance.choice(["0", "0", decimal(chance, digits, -5, 9)]) if is_degenerate else decimal(chance, digits, -9, 20)
        reach = None
        if chance.random() < 0.25:
            reach = decimal(chance, digits, -3, 4) if kind == "E" else decimal(chance, digits, 0, 6)
        program.row(kind, f"R{row}", right, reach=reach)
    for column in range(chance.randint(1, 12)):
        low, high = -2 if is_degenerate else -9, 3 if is_degenerate else 9
        entries = [(f"R{row}", decimal(chance, digits, low, high)) for row in range(rows) if chance.random() < 0.45]
        at = chance.random()
        below, above = "0", None
        if at < 0.12:
            below = None
        elif at < 0.35:
            above = decimal(chance, digits, 0, 6)
        elif at < 0.5:
            below = decimal(chance, digits, -5, 3)
        elif at < 0.55:
            below = above = decimal(chance, digits, -2, 4)
        program.column(f"X{column}", decimal(chance, digits, -4, 9), entries, below, above)
    return program


def larger_core(seed):
    """25 to 45 rows and 30 to 60 columns of all kinds, so that nodes are guessed first; a third each OPTIMAL, INFEASIBLE and UNBOUNDED."""
    chance = random.Random(f"larger {seed}")
    program = Program()
    rows, columns, digits = chance.randint(25, 45), chance.randint(30, 60), chance.choice([0, 0, 1])
    values = [chance.randint(0, 4) for _ in range(columns)]
    entries = [[] for _ in range(columns)]
    sums = [0] * rows
    for row in range(rows):
        for column in chance.sample(range(columns), 4):
            value = chance.randint(-3, 5) or 1
            entries[column].append((f"R{row}", value))
            sums[row] += value * values[column]
    wish = seed % 3
    for row in range(rows):
        kind = chance.choice("LGEL")
        slack = 0 if kind == "E" else chance.randint(0, 3)
        right = sums[row] + (slack if kind == "L" else -slack)
        program.row(kind, f"R{row}", right, reach=chance.randint(4, 8) if kind != "E" and chance.random() < 0.2 else None)
    if wish == 1:
        # what the first two columns give together is asked to be more, and less, than the same number
        for kind, name, right in (("G", "MORE", 9), ("L", "LESS", 8)):
            program.row(kind, name, right)
            for column in (0, 1):
                entries[column].append((name, 1))
    for column in range(columns):
        low, high = chance.choice([("0", None), ("0", 9), ("-3", None), (None, None), ("-5", 12)])
        cost = decimal(chance, digits, -2 if wish == 2 else 1, 9)
        program.column(f"X{column}", cost, entries[column], low, high if wish == 2 else high or 40)
    return program


def hard_core(seed):
    """Ties of 10^-12, and coefficients of 10^-30 to 10^30."""
    chance = random.Random(f"hard {seed}")
    program = Program()

    def number():
        at = chance.random()
        if at < 0.4:
            return str(chance.randint(1, 9))
        if at < 0.6:
            return "%d.%s%d" % (chance.randint(1, 3), "0" * chance.randint(7, 12), chance.randint(1, 9))
        if at < 0.75:
            return str(chance.randint(1, 9) * 10 ** chance.randint(1, 6))
        if at < 0.8:
            return f"{chance.randint(1, 9)}e{chance.choice([-30, -20, -12, 12, 20, 30])}"
        return "0." + "0" * chance.randint(0, 5) + str(chance.randint(1, 9))
    rows = chance.randint(2, 8)
    for row in range(rows):
        program.row(chance.choice("LGLE"), f"R{row}", chance.choice([number(), "0", "1", "1.000000000001", "0.999999999999"]))
    for column in range(chance.randint(2, 10)):
        entries = [(f"R{row}", chance.choice(["", "", "-"]) + number()) for row in range(rows) if chance.random() < 0.5]
        at = chance.random()
        low, high = None if 0.5 < at < 0.55 else "0", number() if at < 0.5 else None
        program.column(f"X{column}", chance.choice(["", "-", ""]) + number(), entries, low, high)
    return program


def unlike_core(seed):
    """Entries of 10^-20, 10^-10, 10^10 and 10^20 beside whole numbers below 10."""
    chance = random.Random(f"unlike {seed}")
    program = Program()

    def number():
        if chance.random() < 0.6:
            return str(chance.randint(1, 9))
        return f"{chance.randint(1, 9)}e{chance.choice([-20, 20, -10, 10])}"
    rows = chance.randint(2, 6)
    for row in range(rows):
        program.row(chance.choice("LGLE"), f"R{row}", chance.choice([number(), "0", "1"]))
    for column in range(chance.randint(2, 8)):
        entries = [(f"R{row}", chance.choice(["", "", "-"]) + number()) for row in range(rows) if chance.random() < 0.6]
        program.column(f"X{column}", number(), entries, "0", number() if chance.random() < 0.3 else None)
    return program


def wild_core(seed):
    """8 to 41 rows with entries of up to 10^-15 to 10^15, of which floats make what they can."""
    chance = random.Random(f"wild {seed}")
    program = Program()
    rows = chance.choice([8, 12, 17, 17, 25, 41])
    columns = int(rows * chance.choice([1, 1.3, 2]))
    reach, density = chance.choice([6, 10, 15]), chance.choice([0.2, 0.4, 0.7])
    is_positive = chance.random() < 0.7
    kinds = chance.choice(["G", "LG", "LGE"])

    def number():
        return f"{chance.randint(1, 99)}e{chance.randint(-reach, reach)}"
    for row in range(rows):
        program.row(chance.choice(kinds), f"R{row}", number())
    for column in range(columns):
        entries = [(f"R{row}", ("" if is_positive else chance.choice(["", "-"])) + number()) for row in range(rows) if chance.random() < density]
        program.column(f"X{column}", number(), entries, "0", number() if chance.random() < 0.3 else None)
    return program


# ---- programs on trees

def nested(periods, cases, items, digits, seed):
    """Items are ordered under a common limit; their demand is met from orders, of which a part is lost, stocks and a dear source."""
    chance = random.Random(f"{periods} {cases} {items} {digits} {seed}")
    program = Program()
    every = range(1, items + 1)
    for at in range(periods):
        if at > 0:
            for item in every:
                program.row("E", f"D{at}_{item}", decimal(chance, digits, 5, 20), at)
        if at < periods - 1:
            program.row("L", f"C{at}", decimal(chance, digits, 12 * items, 20 * items), at)
        for item in every:
            if at > 0:
                program.column(f"Y{at}_{item}", decimal(chance, digits, 10, 20), [(f"D{at}_{item}", 1)], period=at)
                kept = [(f"D{at + 1}_{item}", decimal(chance, digits, 0.8, 1))] if at < periods - 1 else []
                program.column(f"Z{at}_{item}", decimal(chance, digits, 0.2, 2), [(f"D{at}_{item}", -1)] + kept, period=at)
            if at < periods - 1:
                program.column(f"X{at}_{item}", decimal(chance, digits, 1, 6), [
                    (f"C{at}", decimal(chance, digits, 0.5, 2)), (f"D{at + 1}_{item}", decimal(chance, digits, 0.7, 1))], period=at)
    for at in range(1, periods):
        program.block(at, [(f"1/{cases}", {f"D{at}_{item}": decimal(chance, digits, 2, 20) for item in every}) for _ in range(cases)])
    return program


def wide(periods, cases, items, seed=1):
    """As those of `make`: whole numbers, one block a period."""
    chance = random.Random(f"wide {periods} {cases} {items} {seed}")
    program = Program()
    every = range(1, items + 1)
    for at in range(periods):
        if at > 0:
            for item in every:
                program.row("E", f"D{at}_{item}", 0, at)
        if at < periods - 1:
            program.row("L", f"C{at}", 20 * items, at)
        for item in every:
            if at > 0:
                program.column(f"Y{at}_{item}", 10 + chance.randrange(10), [(f"D{at}_{item}", 1)], period=at)
                kept = [(f"D{at + 1}_{item}", 1)] if at < periods - 1 else []
                program.column(f"Z{at}_{item}", 1, [(f"D{at}_{item}", -1)] + kept, period=at)
            if at < periods - 1:
                program.column(f"X{at}_{item}", 1 + chance.randrange(5), [(f"C{at}", 1), (f"D{at + 1}_{item}", 1)], period=at)
    for at in range(1, periods):
        program.block(at, [(f"1/{cases}", {f"D{at}_{item}": chance.randrange(20) for item in every}) for _ in range(cases)])
    return program


def plants(demands, cases, seed=1):
    """Four plants are built before the demands are known, each of which has so many cases of its own."""
    chance = random.Random(f"plants {demands} {cases} {seed}")
    program = Program()
    kinds = range(4)
    program.row("G", "LEAST", 15)
    program.row("L", "MONEY", 220)
    for demand in range(demands):
        program.row("G", f"D{demand}", chance.randint(3, 7), 1)
    for kind in kinds:
        program.row("L", f"U{kind}", 0, 1)
    for kind in kinds:
        program.column(f"X{kind}", 6 + 2 * kind, [("LEAST", 1), ("MONEY", 10 - kind), (f"U{kind}", -1)])
    for kind in kinds:
        for demand in range(demands):
            cost = decimal(chance, 1, 2, 9)
            program.column(f"Y{kind}_{demand}", cost, [(f"U{kind}", 1), (f"D{demand}", 1)], period=1)
    for demand in range(demands):
        program.column(f"S{demand}", 100, [(f"D{demand}", 1)], period=1)
        shares = {5: ["0.1", "0.2", "0.4", "0.2", "0.1"]}.get(cases, [f"1/{cases}"] * cases)
        program.block(1, [(share, {f"D{demand}": chance.randint(1, 12)}) for share in shares])
    return program


# ---- programs whose optimum is too long for 128 bits

def lines_of(kind, rows, columns, chance):
    """By row the columns that it has: any four, or a band of four."""
    for row in range(rows):
        if kind == "staircase":
            yield sorted({at % columns for at in range(row + row // 2, row + row // 2 + 4)})
        else:
            yield sorted(chance.sample(range(columns), min(columns, 4)))


def long_core(kind, rows, digits, seed):
    """Rows of four entries over half as many columns again: `sparse` and `staircase` are L, G and E rows, `ranged` E rows and rows with
    two ends. There is a policy, and no cost is below 0."""
    chance = random.Random(f"long {kind} {rows} {digits} {seed}")
    program, columns = Program(), rows + rows // 2
    entries, sums = [[] for _ in range(columns)], []
    point = [Fraction(chance.randint(0, 9 * 10**digits), 10**digits) if chance.random() < 0.7 else Fraction(0) for _ in range(columns)]
    for row, line in enumerate(lines_of(kind, rows, columns, chance)):
        sums.append(Fraction(0))
        for column in line:
            value = ("-" if kind != "staircase" and chance.random() < 0.3 else "") + decimal(chance, digits, 1, 9)
            entries[column].append((f"R{row}", value))
            sums[row] += Fraction(value) * point[column]
    for row, total in enumerate(sums):
        at, slack = chance.random(), Fraction(chance.randint(0, 5 * 10**digits), 10**digits)
        if kind == "ranged":
            sign, reach = ("E", None) if at < 0.4 else ("G", 2 * slack + 1)
        else:
            sign, reach = ("E" if at < 0.15 else "L" if at < 0.4 else "G"), None
        right = total + slack if sign == "L" else total - slack if sign == "G" else total
        program.row(sign, f"R{row}", right, reach=reach)
    for column in range(columns):
        program.column(f"X{column}", decimal(chance, digits, 1, 9), entries[column], high=40 if chance.random() < 0.3 else None)
    return program


def reservoirs(periods, cases, items, digits, seed):
    """Water of a river runs through reservoirs, one below the other, is kept, spilt, or turned into power, which meets a demand or is
    bought; a part of what is kept dries up."""
    chance = random.Random(f"reservoirs {periods} {cases} {items} {digits} {seed}")
    program, every = Program(), range(items)
    for at in range(periods):
        program.row("E", f"P{at}", decimal(chance, digits, 10, 30), at)
        for item in every:
            program.row("E", f"W{at}_{item}", decimal(chance, digits, 4, 12), at)
        program.column(f"B{at}", decimal(chance, digits, 4, 9), [(f"P{at}", 1)], period=at)
        program.column(f"S{at}", decimal(chance, digits, 0.1, 0.9), [(f"P{at}", -1)], period=at)
        for item in every:
            below = [(f"W{at}_{item + 1}", -1)] if item + 1 < items else []
            program.column(f"R{at}_{item}", decimal(chance, digits, 0.1, 0.4), [(f"W{at}_{item}", 1), (f"P{at}", decimal(chance, digits, 0.5, 2))] + below,
                           high=decimal(chance, digits, 8, 14), period=at)
            program.column(f"O{at}_{item}", decimal(chance, digits, 0.1, 0.2), [(f"W{at}_{item}", 1)] + below, period=at)
            kept = [(f"W{at + 1}_{item}", "-" + decimal(chance, digits, 0.8, 0.99))] if at + 1 < periods else []
            program.column(f"K{at}_{item}", 0 if kept else "-" + decimal(chance, digits, 0.5, 2), [(f"W{at}_{item}", 1)] + kept,
                           high=decimal(chance, digits, 15, 30), period=at)
    for at in range(1, periods):
        program.block(at, [(f"1/{cases}", {f"W{at}_{item}": decimal(chance, digits, 1, 15) for item in every}) for _ in range(cases)])
    return program


def payments(periods, cases, items, digits, seed):
    """Money is put into papers that run for one or two periods, bought and sold with fees; payments come due, whose sizes become known."""
    chance = random.Random(f"payments {periods} {cases} {items} {digits} {seed}")
    program, every = Program(), range(items)
    for at in range(periods):
        program.row("E", f"M{at}", "0" if at else decimal(chance, digits, 80, 120), at)
        for item in every:
            program.row("E", f"H{at}_{item}", "0" if at else decimal(chance, digits, 5, 15), at)
    for at in range(periods):
        program.column(f"L{at}", decimal(chance, digits, 1.2, 1.9), [(f"M{at}", "-1")], period=at)
        later = [(f"M{at + 1}", "-" + decimal(chance, digits, 1.01, 1.04))] if at + 1 < periods else []
        program.column(f"C{at}", 0 if later else "-1", [(f"M{at}", "1")] + later, period=at)
        for item in every:
            program.column(f"U{at}_{item}", decimal(chance, digits, 0.01, 0.05), [(f"M{at}", decimal(chance, digits, 1.01, 1.2)), (f"H{at}_{item}", "-1")], period=at)
            program.column(f"V{at}_{item}", decimal(chance, digits, 0.01, 0.05), [(f"M{at}", "-" + decimal(chance, digits, 0.9, 1)), (f"H{at}_{item}", "1")], period=at)
            grown = [(f"H{at + 1}_{item}", "-" + decimal(chance, digits, 1.01, 1.12))] if at + 1 < periods else []
            program.column(f"N{at}_{item}", 0 if grown else "-" + decimal(chance, digits, 0.9, 1.1), [(f"H{at}_{item}", "1")] + grown,
                           high=decimal(chance, digits, 40, 90), period=at)
    for at in range(1, periods):
        program.block(at, [(f"1/{cases}", {f"M{at}": "-" + decimal(chance, digits, 5, 60)}) for _ in range(cases)])
    return program


LONG_TREES = {"production": nested, "reservoirs": reservoirs, "payments": payments}
