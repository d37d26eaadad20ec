#!/usr/bin/env python3
"""Families of games of any size, the same on every machine.

    bench/families.py FAMILY A B [SEED]         prints a game; the families below say what A and B are
    bench/families.py --solution FAMILY A B     prints a solution of the game, for a family that Even wins without a choice
"""
import sys


class Dice:
    """Numbers that look random: splitmix64."""

    MASK = 2**64 - 1

    def __init__(self, seed):
        self.state = seed * 0x9E3779B97F4A7C15 & self.MASK ^ 0xD1B54A32D192ED03

    def below(self, n):
        self.state = z = self.state + 0x9E3779B97F4A7C15 & self.MASK
        z = (z ^ z >> 30) * 0xBF58476D1CE4E5B9 & self.MASK
        z = (z ^ z >> 27) * 0x94D049BB133111EB & self.MASK
        return ((z ^ z >> 31) >> 33) % max(n, 1)

    def between(self, least, most):
        return least + self.below(most - least + 1)

    def one_in(self, n):
        return self.below(n) == 0

    def choice(self, some):
        return some[self.below(len(some))]


# Each family yields vertices as (priority, owner, successors), by rising identifiers from 0.


def settled(a, b, dice):
    """a vertices of even priorities below 2b, with three successors: no measure rises, so the time is that of the texts"""
    for _ in range(a):
        yield 2 * dice.below(b), dice.below(2), [dice.below(a) for _ in range(3)]


def climb(a, b, dice):
    """a odd priorities of b vertices each that Even wins, and a loop of priority 1 that climbs through all lists"""
    yield 1, 1, [0]
    yield 2 * a + 2, 0, [1]
    for i in range(a * b):
        yield 2 * (i // b) + 1, i % 2, [1]


def climbers(a, b, dice):
    """the same with b chained loops of length 3, in which Odd wins slowly"""
    yield 2 * a + 2, 0, [0]
    for i in range(4 * a):
        yield 2 * (i // 4) + 1, (i + 1) % 2, [0]
    for i in range(b):
        first = 1 + 4 * a + 3 * i
        yield 1, 0, [first + 1, first + 3 if i + 1 < b else first]
        yield 0, 1, [first + 2]
        yield 2 * (i % a), 0, [first]


def jurdzinski(a, b, dice):
    """a levels of b blocks, after Jurdzinski's lower bound: measures climb level by level"""
    def vertex(level, block, place):
        return (level * b + block) * 3 + place
    for i in range(a):
        for j in range(b):
            right = vertex(i, (j + 1) % b, 0)
            yield 2 * i + 1, 1, [vertex(i, j, 1), vertex(i - 1 if i > 0 else i, j, 0)]
            yield 2 * i + 2 if j + 1 == b else 0, 0, [right, vertex(i, j, 2)]
            yield 2 * i, 0, [vertex(i, j, 1), vertex(i + 1, j, 0) if i + 1 < a else right]


def ladder(a, b, dice):
    """a rungs of two vertices"""
    for i in range(2 * a):
        yield i % 2, i % 2, [(i + 1) % (2 * a), (i + 2) % (2 * a)]


def clique(a, b, dice):
    """a vertices, each with its own priority and an edge to each other vertex"""
    for i in range(a):
        yield i, i % 2, [j for j in range(a) if j != i]


def recladder(a, b, dice):
    """a layers of five vertices: the recursive ladder"""
    for i in range(a):
        q = 5 * i
        yield 2 * i + 1, 0, [q + 1, q + 5 if i + 1 < a else q]
        yield 2 * i + 2, 1, [q, q + 2, q - 5 if i > 0 else q]
        yield 2 * i, 1, [q + 3, q + 1]
        yield 2 * i + 1, 0, [q + 4, q - 1 if i > 0 else q + 3]
        yield 2 * i, 1, [q + 3, q + 1]


def elevator(a, b, dice):
    """b lifts over a floors each; a request has priority 1 and its service 2"""
    for lift in range(b):
        for f in range(a):
            q, first = 4 * (lift * a + f), 4 * lift * a
            up, down = first + 4 * ((f + 1) % a), first + 4 * ((f + a - 1) % a)
            yield 0, 1, [q + 1, q + 2]
            yield 1 if lift == 0 and f % 16 == 3 else 0, 0, [up, down, q + 3]
            yield 0, 0, [up, first + 4 * ((lift + f) % a)]
            yield 2, 1, [up, q + 1]


def sparse(a, b, dice):
    """a vertices as from a model checker, mostly of priorities 0 and 2, and b of priority 1 or 3"""
    game = []
    for i in range(a):
        successors = [dice.below(a) if dice.one_in(4) else (i + dice.between(1, 20)) % a for _ in range(dice.between(1, 3))]
        game.append([2 if dice.one_in(10) else 0, dice.below(2), successors])
    for k in range(b):
        game[dice.below(a)][0] = 1 if k % 2 == 0 else 3
    yield from game


def random(a, b, dice):
    """a vertices of priorities up to b, each with at most four successors"""
    for _ in range(a):
        successors = [dice.below(a) for _ in range(dice.between(1, 4))]
        yield dice.below(b + 1), dice.below(2), successors


def chain(a, b, dice):
    """a cycle of a vertices, b of them of priority 1: a rise runs through all"""
    ones = {k * 7919 % a for k in range(b)}
    for i in range(a):
        yield 1 if i in ones else 0, i % 2, [(i + 1) % a]


def grid(a, b, dice):
    """a by a vertices, the players in turn, priorities up to b, of which few are odd"""
    for y in range(a):
        for x in range(a):
            successors = [y * a + (x + 1) % a, (y + 1) % a * a + x]
            if dice.one_in(3):
                successors.append(y * a + (x + a - 1) % a)
            priority = dice.below(b + 1) if dice.one_in(50) else 0
            if priority % 2 == 1 and not dice.one_in(1 + a * a // 3000):
                priority -= 1
            yield priority, (x + y) % 2, successors


def wide(a, b, dice):
    """a vertices and b odd priorities, so that measures are long; Even reaches a loop of the greatest priority"""
    yield 2 * b + 2, 0, [0]
    for i in range(1, a):
        if dice.one_in(4):
            yield i * 7919 % (2 * b + 1), 1, [i - dice.below(min(i, 50)) - 1, i - 1]
        else:
            yield i * 7919 % (2 * b + 1), 0, [i - 1, 0, dice.below(a)]


def hubs(a, b, dice):
    """a vertices of priorities up to b, every second of which can go to a loop that its owner wins: few lifts in the game
    and in its dual"""
    yield b + b % 2 + 2, 0, [0]
    yield b + b % 2 + 1, 1, [1]
    for i in range(2, a):
        owner, linked = dice.below(2), dice.one_in(2)
        successors = [dice.below(a if linked else i) if linked or dice.one_in(3) else i - 1 - dice.below(min(i, 30))
                      for _ in range(dice.between(1, 3))]
        yield dice.below(b + 1), owner, successors + [owner] if linked else successors


def loops(a, b, dice):
    """a vertices of Odd, of b odd priorities, each with itself and two others as successors: each lift makes an update"""
    for i in range(a):
        yield 2 * dice.below(b) + 1, 1, [i, dice.below(a), dice.below(a)]


def repeats(a, b, dice):
    """a vertices, each with itself as its one successor, which is listed b times"""
    for v in range(a):
        yield v % 2, v % 2, [v] * b


def hard(a, b, dice):
    """a vertices of up to twice as many priorities, each with one to three successors, all nearby or anywhere: measures climb"""
    most = dice.choice([a, a // 2, a // 4 + 1, 2 * a])
    degree, is_local = dice.between(2, 3), dice.one_in(2)
    for i in range(a):
        successors = [(i + dice.between(-4, 4)) % a if is_local else dice.below(a) for _ in range(dice.between(1, degree))]
        yield dice.below(min(most, 65_534) + 1), dice.below(2), successors


def priorities(a, b, dice):
    """a vertices of Odd and b priorities, won by Even: a vertex of odd priority has one successor, of the next priority, others have two
    anywhere. Without those of the greatest priorities most of the others are still one component"""
    for i in range(a):
        p = i % b
        if p % 2 == 0:
            yield p, 1, [dice.below(a), dice.below(a)]
        elif p + 1 < b:
            yield p, 1, [dice.below(a // b) * b + p + 1]
        else:
            yield 0, 1, [dice.below(a)]


def steps(a, b, dice):
    """a vertices of Odd, each of a priority of its own, won by Even: a step up from each, and two down from those of even priority"""
    for i in range(a):
        if i + 1 == a:
            yield i + i % 2, 1, [max(i - 2, 0)]
        else:
            yield i, 1, [i + 1] if i % 2 == 1 or i < 2 else [i - 2, i + 1]


def spread(a, b, dice):
    """a vertices with successors nearby and far, of which one in a hundred has a priority up to b, and the others 0"""
    for i in range(a):
        successors = [dice.below(a) if dice.one_in(4) else (i + dice.between(1, 20)) % a for _ in range(dice.between(1, 3))]
        yield dice.between(1, b) if dice.one_in(100) else 0, dice.below(2), successors


def with_dual(game, dice):
    """A game and its dual side by side, with an edge between them for each twenty vertices."""
    game = [[priority, owner, list(successors)] for priority, owner, successors in game]
    count = len(game)
    game += [[priority + 1, 1 - owner, [count + w for w in successors]] for priority, owner, successors in game]
    for _ in range(count // 20 + 1):
        v = dice.below(2 * count)
        game[v][2].append((count if v < count else 0) + dice.below(count))
    return game


def two_ladders(a, b, dice):
    """the recursive ladder of a layers and its dual side by side, with edges between them"""
    yield from with_dual(recladder(a, b, dice), dice)


def maze(a, b, dice):
    """a vertices of Even and b odd priorities, each with three successors anywhere, and one loop of an even priority as the way out"""
    for i in range(a):
        yield 2 * dice.below(b) + 1 if i else 2 * b, 0, [dice.below(a) for _ in range(3)] if i else [0]


def flat_hub(a, b, dice):
    """a row of a vertices that lead to a loop, and a hub of Even that leads to each of them"""
    yield 0, 0, [0]
    for i in range(1, a):
        yield 1 if i % 2 else 3, 0, [0]
    yield 0, 0, [*range(1, a)]


def rising_hub(a, b, dice):
    """a row of a vertices that rise one after the other, and a hub of Even that leads to each of them: its least successor changes
    again and again"""
    yield 0, 0, [0]
    for i in range(1, a):
        yield 1 if i % 2 else 3, 0, [max(i - 2, 0)]
    yield 0, 0, [*range(1, a)]
    yield 1, 0, [a]


def named(game):
    """Vertices in the order of their names; successors whose name no vertex has are left out."""
    places = {name: place for place, name in enumerate(game)}
    for priority, owner, successors in game.values():
        yield priority, owner, [places[name] for name in successors if name in places]


def friedmann(a, b, dice):
    """a levels, after Friedmann's lower bound: the recursive method takes exponential time"""
    game = {("a", i): (1 - i % 2, 1 - i % 2, [("b", i), ("d", i - 1)]) for i in range(1, a + 1)}
    game |= {("b", i): (1 - i % 2, i % 2, [("a", i), ("c", i)]) for i in range(1, a + 1)}
    game |= {("c", i): (3 * i + 5, 1 - i % 2, [("b", i + 1), ("d", i)]) for i in range(1, a)}
    game |= {("d", i): (3 * i + 4, i % 2, [("e", i), ("d", i - 1), ("d", i + 1)]) for i in range(a)}
    game |= {("e", i): (3 * i + 3, 1 - i % 2, [("b", i), ("d", i)]) for i in range(a)}
    yield from named(game)


def twice(a, b, dice):
    """friedmann of a levels and its dual side by side, with edges between them"""
    yield from with_dual(friedmann(a, b, dice), dice)


def path(a, b, dice):
    """a vertices, each of which leads to its neighbours; priorities rise, and owners take turns"""
    for i in range(a):
        yield min(i, 65535), i % 2, [j for j in (i - 1, i + 1) if 0 <= j < a]


def memory(a, b, dice):
    """a steps, at each of which Odd's best play for measures first goes round over a small odd priority and then leaves"""
    game = {}
    for i in range(a):
        game["v", i] = 0, 1, [("w", i), ("v", i + 1) if i + 1 < a else "end"]
        game["w", i] = 2 * i + 1, 1, [("z", i)]
        game["z", i] = 2 * i + 2, 0, [("v", i)]
    game["end"] = 2 * a + 1, 0, ["stop"]
    game["stop"] = 2 * a + 2, 0, ["stop"]
    yield from named(game)


def longway(a, b, dice):
    """a vertices in a row, after which Odd can go back to the first over each of b odd priorities: its best play goes all the way for each"""
    game = {("row", i): (0, 1, [("row", i + 1) if i + 1 < a else ("v", 0)]) for i in range(a)}
    for i in range(b):
        game["v", i] = 0, 1, [("w", i), ("v", i + 1) if i + 1 < b else "end"]
        game["w", i] = 2 * i + 1, 1, [("z", i)]
        game["z", i] = 2 * i + 2, 0, [("row", 0)]
    game["end"] = 2 * b + 1, 0, ["stop"]
    game["stop"] = 2 * b + 2, 0, ["stop"]
    yield from named(game)


def cells(a):
    """The vertex of a cell, of four in each of a layers, which follow two vertices that the layers share; none outside the layers."""
    return lambda cell, layer: [2 + 4 * layer + cell] if 0 <= layer < a else []


def budget(a, b, dice):
    """a layers, found by a search for games on which jumps are given up and measures climb"""
    at = cells(a)
    yield 5, 1, [*at(1, 0), *at(2, 0), *at(0, a - 1)]
    yield 4 * a + 5, 0, at(0, 0)
    for i in range(a):
        yield 6 * i, 0, [*at(3, i + 1), *at(0, 0)]
        yield 2 * i + 1, 0, [*at(1, i - 1), *at(3, i + 1), *at(2, i + 1)] or at(1, i)
        yield 4 * i + 11, 0, [0, 1, 0, *at(1, i)]
        yield 2 * i + 1, 0, [1, *at(3, i), 0, *at(1, i)]


def even(a, b, dice):
    """a layers, found by a search for games on which jumps double with each layer"""
    at, least = cells(a), 2 * a - 2
    yield least + 5, 0, [1, *at(1, a - 1), 0, 0]
    yield least + 2 * a + 3, 0, at(3, a - 1)
    for i in range(a):
        yield least + 2 * i + 6, 0, [*at(2, i + 1), *at(1, i - 1), *at(2, i + 1)] or at(0, i)
        yield least + 4 * i + 9, i % 2, [*at(2, i), *at(3, a - 1), *at(3, i + 1)]
        yield least - 2 * i + 1, 1, [*at(3, i + 1), *at(2, i - 1), *at(0, i), *at(0, 0)]
        yield least + 8, 0, [*at(2, i - 1), *at(2, i + 1), *at(3, i - 1), *at(1, i + 1)] or at(3, i)


FIRST, LAST, ALL_BELOW = "first", "last", "all below"


def laid(common, cells, layers):
    """Cells that are in each layer, except for the first ones, which all layers share. A cell has a priority, its growth from layer to
    layer, an owner, whether owners take turns, and successors: a cell and its layer, which is one of these names or counts from here."""
    size = len(cells) - common
    least = min(priority + min(0, growth * (layers - 1)) for priority, growth, *_ in cells)
    raised = -least + least % 2 if least < 0 else 0

    def places(cell, layer, to, there):
        if to < common:
            return [to]
        if there == ALL_BELOW:
            there = range(layers if cell < common else layer)
        elif there in (FIRST, LAST):
            there = [0 if there == FIRST else layers - 1]
        else:
            there = [layer + there if cell >= common else layers - 1 if there > 0 else 0]
        return [common + at * size + to - common for at in there if 0 <= at < layers]

    def vertex(cell, layer, itself):
        priority, growth, owner, takes_turns, edges = cells[cell]
        successors = [at for to, there in edges for at in places(cell, layer, to, there)]
        grown = abs(growth) * layers if cell < common else growth * layer
        turned = layer % 2 if takes_turns and cell >= common else 0
        return priority + grown + raised, owner ^ turned, list(dict.fromkeys(successors)) or [itself]

    for cell in range(common):
        yield vertex(cell, 0, cell)
    for layer in range(layers):
        for cell in range(common, len(cells)):
            yield vertex(cell, layer, common + layer * size + cell - common)


def rounds(a, b, dice):
    """a layers, found by a search for games whose measures fall step by step, and go on for as many steps as there are layers"""
    cells = [(11, -2, 0, False, [(4, -1), (1, 0), (0, 0), (5, -1)]),
             (6, 0, 1, False, [(5, -1), (2, -1), (5, 0), (1, 0)]),
             (5, 4, 0, False, [(4, 1), (5, 0), (1, 1)]),
             (8, 1, 1, True, [(3, 1)]),
             (3, 1, 1, False, [(2, 0), (5, 0)]),
             (6, 4, 1, False, [(4, 0), (5, 1), (1, 1), (5, 0)])]
    yield from laid(1, cells, a)


def looks(a, b, dice):
    """a layers, found by a search for games whose measures are lowered for long"""
    cells = [(6, 1, 1, False, [(3, 0), (1, 0), (0, 0), (5, 0)]),
             (0, 6, 1, False, [(2, FIRST), (2, 1), (5, FIRST), (1, FIRST)]),
             (8, 0, 0, False, [(3, 1), (5, 0)]),
             (2, 4, 1, False, [(1, FIRST), (3, 0), (1, 1), (2, 1)]),
             (4, 2, 1, False, [(2, 1)]),
             (5, 4, 1, False, [(4, 0), (2, 1)])]
    yield from laid(1, cells, a)


def regions(a, b, dice):
    """a layers, found by a search for games whose winners recursion, fixpoint iteration and strategy improvement find late"""
    cells = [(3, 0, 0, True, [(6, 0)]),
             (8, 1, 1, False, [(9, -1), (0, FIRST), (7, 1)]),
             (5, 0, 0, False, [(5, 1), (3, -1)]),
             (2, -2, 0, True, [(2, 1), (0, 1), (7, FIRST), (2, 0)]),
             (10, 4, 0, False, [(6, -1), (9, 0), (8, 0)]),
             (17, 4, 0, False, [(3, 0), (4, 1), (4, FIRST), (6, 0)]),
             (0, -2, 1, False, [(7, 0), (2, 0)]),
             (11, -2, 1, False, [(4, FIRST), (7, -1), (3, 0), (2, 0)]),
             (8, -2, 1, False, [(4, 0), (4, 1), (3, 0)]),
             (18, 4, 1, False, [(5, FIRST), (1, FIRST), (5, -1), (3, 1)])]
    yield from laid(2, cells, a)


def lists(a, b, dice):
    """a layers, found by a search for games whose measures have many components"""
    cells = [(2, 2, 0, False, [(2, 1)]),
             (1, 2, 0, False, [(3, 1), (2, 1), (2, 0), (0, 0)]),
             (1, 0, 1, False, [(3, 0), (1, -1)]),
             (1, 2, 0, False, [(0, 0), (1, 1), (2, FIRST), (2, 0)]),
             (2, -2, 0, False, [(2, 1)])]
    yield from laid(0, cells, a)


def gadget(a, b, dice):
    """up to a layers of up to b cells, all at random"""
    many = dice.between(2, b)
    common = dice.below(min(3, many))
    cells = []
    for _ in range(many):
        growth = dice.choice([0, 2, 2, 4, -2, 1, -2])
        edges = [(dice.below(many), dice.choice([0, 0, 0, 0, 1, 1, -1, -1, FIRST, LAST, ALL_BELOW])) for _ in range(dice.between(1, 3))]
        cells.append((dice.below(2 * many), growth, dice.below(2), growth % 2 == 1 or dice.one_in(6), edges))
    yield from laid(common, cells, dice.between(2, a))


def ring(a, b, dice):
    """a vertices of priorities below b, each with the next one and another anywhere as successors"""
    for i in range(a):
        yield dice.below(b), dice.below(2), [(i + 1) % a, dice.below(a)]


def few(a, b, dice):
    """a vertices of priorities below b, each with one or two successors anywhere"""
    for _ in range(a):
        yield dice.below(b), dice.below(2), [dice.below(a) for _ in range(dice.between(1, 2))]


def bipartite(a, b, dice):
    """a vertices of priorities below b, each with one or two successors anywhere among those of the other player"""
    for i in range(a):
        yield dice.below(b), i % 2, [dice.below(a // 2) * 2 + 1 - i % 2 for _ in range(dice.between(1, 2))]


def bipartite_wide(a, b, dice):
    """the same with one to three successors"""
    for i in range(a):
        yield dice.below(b), i % 2, [dice.below(a // 2) * 2 + 1 - i % 2 for _ in range(dice.between(1, 3))]


def geometric(a, b, dice):
    """a vertices with one or two successors anywhere, half of them of priority 0, half of the others of priority 1, and so on up to b"""
    for _ in range(a):
        priority = 0
        while priority < b and dice.one_in(2):
            priority += 1
        yield priority, dice.below(2), [dice.below(a) for _ in range(dice.between(1, 2))]


def switches(a, b, dice):
    """a bits of a counter, after Friedmann's lower bound for strategy improvement; if b is odd, the dual"""
    count, end = 20 * a, ["x"]
    game = {"x": (1, 1, end)}
    game["s"] = count + 2, 0, [("f", j) for j in range(1, a + 1)] + end
    game["r"] = count + 4, 0, [("g", j) for j in range(1, a + 1)] + end
    game["c"] = count, 1, ["s", "r"]
    for i in range(1, 2 * a + 1):
        game["t", i] = 4 * a + 2 * i + 1, 0, ["s", "r", ("t", i - 1) if i > 1 else "c"]
        game["a", i] = 4 * a + 2 * i + 2, 1, [("t", i)]
    for i in range(1, a + 1):
        game["d", i] = 4 * i + 1, 0, ["s", ("e", i), "r"] + [("a", j) for j in range(1, 2 * i + 1)]
        game["e", i] = 4 * i + 2, 1, [("d", i), ("h", i)]
        game["g", i] = 4 * i + 3, 0, [("f", i), ("k", i)]
        game["k", i] = count + 4 * i + 3, 0, [("g", j) for j in range(i + 1, a + 1)] + end
        game["f", i] = count + 4 * i + 5, 1, [("e", i)]
        game["h", i] = count + 4 * i + 6, 1, [("k", i)]
    for priority, owner, successors in named(game):
        yield priority + b % 2, owner ^ b % 2, successors


FAMILIES = {it.__name__: it for it in (settled, climb, climbers, jurdzinski, ladder, clique, recladder, elevator, sparse, random,
                                       chain, grid, wide, hubs, loops, repeats, hard, priorities, steps, spread, two_ladders,
                                       maze, flat_hub, rising_hub, friedmann, twice, path, memory, longway, budget, even, rounds, looks, regions,
                                       lists, gadget, ring, few, bipartite, bipartite_wide, geometric, switches)}

# those that Even wins without a choice
WON_BY_EVEN = ("priorities", "steps")


def write(out, family, a, b, seed=1):
    """Writes a game of the family."""
    game = list(FAMILIES[family](a, b, Dice(seed)))
    out.write(f"parity {len(game) - 1};\n")
    for v, (priority, owner, successors) in enumerate(game):
        out.write(f"{v} {priority} {owner} {','.join(map(str, successors))};\n")


def write_solution(out, a):
    """Writes a solution in which Even wins a vertices and chooses nothing."""
    out.write(f"paritysol {a - 1};\n" + "".join(f"{v} 0;\n" for v in range(a)))


if __name__ == "__main__":
    words = sys.argv[1:]
    if len(words) == 4 and words[0] == "--solution" and words[1] in WON_BY_EVEN:
        write_solution(sys.stdout, int(words[2]))
    elif len(words) in (3, 4) and words[0] in FAMILIES:
        write(sys.stdout, words[0], *map(int, words[1:]))
    else:
        sys.exit(__doc__ + "\n" + "\n".join(f"{name:12} {it.__doc__}" for name, it in FAMILIES.items()))
