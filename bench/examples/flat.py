"""Programs on trees as one linear program of all nodes, solved by two other solvers: QSopt_ex (exact, Debian's package qsopt-ex, command
esolver) and GLPK (floating point, package glpk-utils, command glpsol).

Nothing here reads the files of examples/ or knows Tidzgheba.
"""
import os
import subprocess
import tempfile
from fractions import Fraction


def number(text):
    """A decimal or a fraction, as it is written."""
    return Fraction(str(text))


class Tree:
    """Scenarios, each with its probability and its nodes by period. A node is the tuple of the cases on the way to it."""

    def __init__(self, scenarios):
        """`scenarios`: names with their probabilities and the cases that they go through after the first period."""
        self.scenarios = [(name, number(chance), [tuple(cases[:at]) for at in range(len(cases) + 1)]) for name, chance, cases in scenarios]
        self.nodes = []
        self.chance = {}
        for _, chance, nodes in self.scenarios:
            for node in nodes:
                if node not in self.chance:
                    self.nodes.append(node)
                self.chance[node] = self.chance.get(node, 0) + chance

    def with_chance(self, chosen, chance):
        """The same tree where one scenario has another probability, and the others keep their proportions."""
        old = next(it[1] for it in self.scenarios if it[0] == chosen)
        scale = (1 - number(chance)) / (1 - old)
        return Tree([(name, number(chance) if name == chosen else old * scale, nodes[-1]) for name, old, nodes in self.scenarios])

    def with_scenario(self, added, chance, cases):
        """The same tree with one more scenario; the others keep their proportions."""
        others = [(name, old * (1 - number(chance)), nodes[-1]) for name, old, nodes in self.scenarios]
        return Tree(others + [(added, chance, cases)])


class Flat:
    """Columns and rows at the nodes of a tree. A column's cost is as of its node: probabilities come in when it is written."""

    def __init__(self, tree):
        self.tree = tree
        self.cost, self.bounds, self.rows = {}, {}, []

    def column(self, node, name, cost=0, low=0, high=None):
        """A column at a node; it is at least 0 unless `low` says otherwise."""
        self.cost[node, name] = number(cost)
        self.bounds[node, name] = (number(low), None if high is None else number(high))
        return {(node, name): Fraction(1)}

    def row(self, terms, sign, right):
        """Terms are factors with the columns that they multiply."""
        total = {}
        for factor, columns in terms:
            for key, value in columns.items():
                total[key] = total.get(key, 0) + number(factor) * value
        self.rows.append((total, sign, number(right)))

    def at_risk(self, level, weight):
        """The same where the mean counts by 1 less the weight, and the conditional value at risk of the level by the weight."""
        level, weight = number(level), number(weight)
        made = Flat(self.tree)
        made.cost = {key: cost * (1 - weight) for key, cost in self.cost.items()}
        made.bounds, made.rows = dict(self.bounds), list(self.rows)
        border = made.column((), "TAIL_H", weight, low=-10 ** 9)
        for _, _, nodes in self.tree.scenarios:
            above = made.column(nodes[-1], "TAIL_U", weight / (1 - level))
            costs = {key: cost for key, cost in self.cost.items() if key[0] in nodes}
            made.row([(1, border), (1, above), (-1, costs)], ">=", 0)
        return made

    def expected(self):
        """The expected cost, as a factor for each column."""
        return {key: self.tree.chance[key[0]] * cost for key, cost in self.cost.items()}

    def costs(self, values):
        """The cost by scenario of values of the columns."""
        return {name: sum(cost * values[key] for key, cost in self.cost.items() if key[0] in nodes) for name, _, nodes in self.tree.scenarios}

    def text(self, goal, more, shown):
        """The program in the LP form: the goal is to be as small as possible, `more` are further rows."""
        at = {key: f"x{number}" for number, key in enumerate(self.cost)}

        def summed(terms):
            return " ".join(f"{'-' if value < 0 else '+'} {shown(abs(value))} {at[key]}" for key, value in terms.items() if value)

        lines = ["Minimize", f" cost: {summed(goal)}", "Subject To"]
        lines += [f" r{k}: {summed(terms)} {sign} {shown(right)}" for k, (terms, sign, right) in enumerate(self.rows + more)]
        lines += ["Bounds"]
        for key, (low, high) in self.bounds.items():
            here = at[key]
            lines.append(f" {shown(low)} <= {here}" if high is None else f" {shown(low)} <= {here} <= {shown(high)}")
        return "\n".join(lines + ["End", ""])

    def exact(self, goal=None, more=()):
        """The least value of the goal, which is the expected cost where none is named, and the columns' values, by esolver."""
        with tempfile.TemporaryDirectory() as room:
            with open(f"{room}/flat.lp", "w") as it:
                it.write("Problem\n flat\n" + self.text(goal or self.expected(), list(more), str))
            subprocess.run(["esolver", "-L", "-O", f"{room}/flat.sol", f"{room}/flat.lp"], stdout=subprocess.DEVNULL, stderr=subprocess.DEVNULL)
            with open(f"{room}/flat.sol") as it:
                lines = it.read().split("\n")
        if "OPTIMAL" not in lines[0]:
            raise ValueError(lines[0])
        at = {f"x{number}": key for number, key in enumerate(self.cost)}
        values = dict.fromkeys(self.cost, Fraction(0))
        least, part = None, None
        for line in lines[1:]:
            words = line.replace("=", " ").split()
            if words[:1] == ["Value"]:
                least = Fraction(words[1])
            elif line.rstrip().endswith(":"):
                part = line.strip()
            elif part == "VARS:" and len(words) == 2:
                values[at[words[0]]] = Fraction(words[1])
        return least, values

    def floating(self):
        """The least expected cost by glpsol."""
        with tempfile.TemporaryDirectory() as room:
            with open(f"{room}/flat.lp", "w") as it:
                it.write(self.text(self.expected(), [], lambda value: repr(float(value))))
            subprocess.run(["glpsol", "--lp", f"{room}/flat.lp", "-o", f"{room}/flat.sol"], stdout=subprocess.DEVNULL, check=True)
            with open(f"{room}/flat.sol") as it:
                text = it.read()
        if "Status:     OPTIMAL" not in text:
            raise ValueError(text[:300])
        return float(next(line for line in text.split("\n") if line.startswith("Objective:")).split()[3])
