"""The three programs of docs/EXAMPLES.md, each written down from its story: as formulas over the nodes of a tree."""
import itertools
from flat import Flat, Tree, number


def choices(*cases):
    """Scenarios S1, S2 .. of independent cases by period, each a name with its probability; the first period's cases vary slowest."""
    scenarios = []
    for at, choice in enumerate(itertools.product(*cases)):
        chance = number(1)
        for _, part in choice:
            chance *= number(part)
        scenarios.append((f"S{at + 1}", chance, [name for name, _ in choice]))
    return Tree(scenarios)


def hydro(dry_summer=("18.6", "7.4")):
    """Two reservoirs on one river, coal, gas and imports over four quarters. `dry_summer`: its inflow into the upper and the lower one."""
    tree = choices([("dry", "0.30"), ("normal", "0.45"), ("wet", "0.25")], [("dry", "0.35"), ("normal", "0.40"), ("wet", "0.25")],
                   [("mild", "0.60"), ("cold", "0.40")])
    inflow = {(1, None): ("61.4", "23.8"), (2, "dry"): dry_summer, (2, "normal"): ("30.2", "11.9"), (2, "wet"): ("44.9", "17.3"),
              (3, "dry"): ("14.3", "9.1"), (3, "normal"): ("25.7", "15.6"), (3, "wet"): ("41.2", "24.8"), (4, "mild"): ("12.7", "10.4"), (4, "cold"): ("6.9", "5.2")}
    load = {1: "96.5", 2: "84.2", 3: "103.8", "mild": "118.6", "cold": "139.3"}
    stays = {2: ("0.98", "0.96"), 3: ("1", "1"), 4: ("1", "1")}
    coal, gas, imported = ("38.60", "38.60", "40.15", "40.15"), ("52.40", "49.75", "58.30", "66.85"), ("94.50", "88.25", "112.40", "136.75")
    flat = Flat(tree)
    at = {}
    for node in tree.nodes:
        t = len(node) + 1
        case = node[-1] if node else None
        column = lambda name, *words, **ends: flat.column(node, f"{name}{t}", *words, **ends)
        here = at[node] = {
            "upper": column("USTORE", low="40" if t == 4 else "0", high="125"), "upper turbine": column("UTURB", high="72.5"), "upper spill": column("USPILL"),
            "lower": column("LSTORE", low="15" if t == 4 else "0", high="38"), "lower turbine": column("LTURB", high="90"), "lower spill": column("LSPILL"),
            "coal": column("COAL", coal[t - 1], high="55"), "gas": column("GAS", gas[t - 1], high="40"), "gas left": column("GASLEFT"),
            "import": column("IMPORT", imported[t - 1]),
        }
        plus = lambda *names: [(1, here[name]) for name in names]
        less = lambda *names: [(-1, here[name]) for name in names]
        was = lambda name, part=1: [(-number(part), at[node[:-1]][name])] if node else []
        upper_stays, lower_stays = stays.get(t, (0, 0))
        upper_start, lower_start, gas_start = ("0", "0", "0") if node else ("42", "18.5", "85")
        upper_inflow, lower_inflow = inflow[t, case]
        flat.row(plus("upper", "upper turbine", "upper spill") + was("upper", upper_stays), "=", number(upper_start) + number(upper_inflow))
        flat.row(plus("lower", "lower turbine", "lower spill") + less("upper turbine", "upper spill") + was("lower", lower_stays), "=",
                 number(lower_start) + number(lower_inflow))
        flat.row([("0.60", here["upper turbine"]), ("0.20", here["lower turbine"])] + plus("coal", "gas", "import"), ">=", load[case if t == 4 else t])
        flat.row(plus("lower turbine", "lower spill"), ">=", "18")
        flat.row(plus("coal") + was("coal"), "<=", "6.5" if node else number("34.7") + number("6.5"))
        flat.row(plus("gas left", "gas") + was("gas left"), "=", gas_start)
    return flat


def capacity(with_surge=False):
    """Two plants for three markets: build, see the demand of four years, build again, see that of four more."""
    tree = Tree([("LOW-LOW", "0.12", ["low", "low"]), ("LOW-BASE", "0.13", ["low", "base"]), ("LOW-HIGH", "0.05", ["low", "high"]),
                 ("BASE-LOW", "0.10", ["base", "low"]), ("BASE-BASE", "0.22", ["base", "base"]), ("BASE-HIGH", "0.13", ["base", "high"]),
                 ("HIGH-LOW", "0.03", ["high", "low"]), ("HIGH-BASE", "0.09", ["high", "base"]), ("HIGH-HIGH", "0.13", ["high", "high"])])
    if with_surge:
        tree = tree.with_scenario("SURGE", "0.06", ["high", "surge"])
    markets = ("EAST", "WEST", "ISLES")
    demand = {("low",): ("24.6", "31.8", "9.5"), ("base",): ("33.5", "42.4", "12.7"), ("high",): ("45.2", "54.9", "17.1"),
              ("low", "low"): ("22.3", "30.1", "8.4"), ("low", "base"): ("29.7", "37.6", "11.2"), ("low", "high"): ("38.4", "46.3", "14.8"),
              ("base", "low"): ("30.8", "39.5", "11.6"), ("base", "base"): ("41.9", "52.7", "15.3"), ("base", "high"): ("53.6", "64.2", "19.9"),
              ("high", "low"): ("38.7", "48.3", "14.9"), ("high", "base"): ("55.4", "66.1", "20.8"), ("high", "high"): ("72.5", "83.7", "27.4"),
              ("high", "surge"): ("96.8", "104.5", "36.2")}
    making = {("N", "EAST"): "0.431", ("N", "WEST"): "0.467", ("N", "ISLES"): "0.512",
              ("S", "EAST"): "0.489", ("S", "WEST"): "0.442", ("S", "ISLES"): "0.528"}
    flat = Flat(tree)
    built = {}
    for node in tree.nodes:
        t = len(node) + 1
        if t > 1:
            sold = {(plant, market): flat.column(node, f"{plant}-{market}{t}", making[plant, market]) for plant in "NS" for market in markets}
            for market, wanted in zip(markets, demand[node]):
                bought = flat.column(node, f"BUY-{market}{t}", "1.245")
                flat.row([(1, sold[plant, market]) for plant in "NS"] + [(1, bought)], ">=", wanted)
            before = [node[:at] for at in range(t - 1)]
            for plant in "NS":
                flat.row([(1, sold[plant, market]) for market in markets] + [(-1, built[it, plant]) for it in before], "<=", 0)
        if t == 1:
            for plant, cost, most in (("N", "0.785", "70"), ("S", "0.705", "64")):
                built[node, plant] = flat.column(node, f"BUILD{plant}1", cost, high=most)
            left = flat.column(node, "LEFT1")
            flat.row([("0.785", built[node, "N"]), ("0.705", built[node, "S"]), (1, left)], "=", "72.5")
        if t == 2:
            for plant, cost in (("N", "0.640"), ("S", "0.595")):
                built[node, plant] = flat.column(node, f"BUILD{plant}2", cost)
                flat.row([(1, built[node, plant]), ("-0.30", built[(), plant])], "<=", 0)
            flat.row([("0.640", built[node, "N"]), ("0.595", built[node, "S"]), (-1, left)], "<=", "6.4")
    return flat


def portfolio(crash=None):
    """Shares, bonds and cash over three years, with payouts, limits of risk and of trade, and a target. `crash`: the probability of three
    bad years."""
    shares = {"good": "1.183", "fair": "1.073", "bad": "0.873"}
    tree = choices(*[[("good", "0.35"), ("fair", "0.40"), ("bad", "0.25")]] * 3)
    if crash:
        tree = tree.with_chance("S27", crash)
    flat = Flat(tree)
    at = {}
    for node in tree.nodes:
        t = len(node)
        # what is there before trade, of each kind
        before = [[(rate, held)] for rate, held in zip((shares[node[-1]], "1.033", "1.021"), at[node[:-1]])] if node else [[], [], []]
        if t == 3:
            gap, deep, spare = flat.column(node, "GAP", "1.5", high="4"), flat.column(node, "DEEPGAP", "4.25"), flat.column(node, "SPARE", "-1")
            flat.row(before[0] + before[1] + before[2] + [(1, gap), (1, deep), (-1, spare)], "=", number("102") + number("3.4"))
            continue
        held = at[node] = [flat.column(node, f"{name}{t}") for name in ("SHARES", "BONDS", "CASH")]
        bought = [flat.column(node, f"BUY{name}{t}", "0.004") for name in ("SH", "BO")]
        sold = [flat.column(node, f"SELL{name}{t}", "0.002") for name in ("SH", "BO")]
        start = ("0", "0", "-3.4") if node else ("30", "60", "10")
        less = [[("-" + rate, columns) for rate, columns in part] for part in before]
        for kind in (0, 1):
            flat.row([(1, held[kind]), (-1, bought[kind]), (1, sold[kind])] + less[kind], "=", start[kind])
        flat.row([(1, held[2])] + [(1, it) for it in bought] + [(-1, it) for it in sold] + less[2], "=", start[2])
        flat.row([(1, held[0])] + [("-0.25", it) for it in held], "<=", 0)
        flat.row([(1, held[2])] + [("-0.05", it) for it in held], ">=", 0)
        flat.row([(1, it) for it in bought + sold], "<=", 20)
    return flat
