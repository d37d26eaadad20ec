"""Progress measures and worlds by the definition, as plainly as possible: for games of a few vertices.

A game is a dictionary from identifiers to (priority, owner, successors). A measure is a list of components, one for
each odd priority that occurs, the greatest first, or TOP. A script is (number of workers, cut, events): the cut is a list
of the workers of the vertices, by rising identifier, or None, and an event is a word and its numbers, as it is written.
"""
TOP = None


class TooFar(Exception):
    """Raised if measures climb too far for the lifts that are allowed."""


def bounds_of(game):
    """The odd priorities that occur, in falling order, each with the number of its vertices."""
    odd = sorted({p for p, _, _ in game.values() if p % 2 == 1}, reverse=True)
    return [(p, sum(1 for q, _, _ in game.values() if q == p)) for p in odd]


def at_most(a, b):
    return b is TOP or (a is not TOP and a <= b)


def covers(bounds, p, m, n):
    """m is top, or both are lists and m is at least n in the components of priorities at least p, more if p is odd."""
    if m is TOP:
        return True
    if n is TOP:
        return False
    width = sum(1 for q, _ in bounds if q >= p)
    return m[:width] > n[:width] if p % 2 == 1 else m[:width] >= n[:width]


def all_measures(bounds):
    """Every measure within the bounds, in rising order; top is the last."""
    lists = [[]]
    for _, most in bounds:
        lists = [xs + [x] for xs in lists for x in range(most + 1)]
    return lists + [TOP]


def least_serving(game, bounds, measures, f, v):
    """The least of the measures that covers some successor of v (Even) or all (Odd)."""
    p, owner, successors = game[v]
    some_or_all = any if owner == 0 else all
    return next(m for m in measures if some_or_all(covers(bounds, p, m, f[w]) for w in successors))


def zeros(game):
    return {v: [0] * len(bounds_of(game)) for v in game}


def least_progress_measure(game):
    """From zero up, until each vertex has its least serving measure."""
    bounds = bounds_of(game)
    measures = all_measures(bounds)
    f = zeros(game)
    changed = True
    while changed:
        changed = False
        for v in game:
            least = least_serving(game, bounds, measures, f, v)
            if not at_most(least, f[v]):
                f[v] = least
                changed = True
    return f


def least_step(bounds, p, m):
    """The least measure that covers m at p, without a look at others: the components that count, of which the last one that can
    rise rises if p is odd."""
    if m is TOP:
        return TOP
    front = m[:sum(1 for q, _ in bounds if q >= p)]
    if p % 2 == 1:
        while front and front[-1] == bounds[len(front) - 1][1]:
            front.pop()
        if not front:
            return TOP
        front[-1] += 1
    return front + [0] * (len(bounds) - len(front))


def climbed(game, most):
    """The least progress measure by lifts alone, each of a vertex that waits, for games of more vertices; it gives up after `most`
    lifts."""
    bounds, f, lifts = bounds_of(game), zeros(game), 0
    sources = {v: [u for u in game if v in game[u][2]] for v in game}
    waiting = dict.fromkeys(game)
    while waiting:
        v, _ = waiting.popitem()
        p, owner, successors = game[v]
        steps = sorted((least_step(bounds, p, f[w]) for w in successors), key=lambda m: (m is TOP, m or []))
        least = steps[0 if owner == 0 else -1]
        if not at_most(least, f[v]):
            f[v], lifts = least, lifts + 1
            waiting.update(dict.fromkeys(sources[v]))
        if lifts > most:
            raise TooFar
    return f


def dual(game):
    return {v: (p + 1, 1 - owner, successors) for v, (p, owner, successors) in game.items()}


def solution_of(game, measure_of):
    """Winner and choice of each vertex, from such measures of the game and of its dual."""
    answer = {}
    for player, played in ((0, game), (1, dual(game))):
        bounds, f = bounds_of(played), measure_of(played)
        for v, (p, _, successors) in played.items():
            if f[v] is not TOP:
                mine = game[v][1] == player
                choice = min(w for w in successors if covers(bounds, p, f[v], f[w])) if mine else None
                answer[v] = (player, choice)
    return answer


def solution(game):
    """The solution of the least measures."""
    return solution_of(game, least_progress_measure)


def shown(m):
    return "T" if m is TOP else ",".join(map(str, m)) or "-"


def game_text(game):
    lines = [f"{v} {p} {owner} {','.join(map(str, sorted(set(ws))))};\n" for v, (p, owner, ws) in sorted(game.items())]
    return f"parity {max(game)};\n" + "".join(lines)


def measures_text(f):
    return "".join(f"{v} {shown(m)};\n" for v, m in sorted(f.items()))


def measure_text(game):
    return measures_text(least_progress_measure(game))


def winners_text(answer):
    lines = [f"{v} {w};\n" if c is None else f"{v} {w} {c};\n" for v, (w, c) in sorted(answer.items())]
    return f"paritysol {max(answer)};\n" + "".join(lines)


def solution_text(game):
    return winners_text(solution(game))


def worker_of(game, script, v):
    """The worker of a vertex; 0 if there is none."""
    workers, cut, _ = script
    place = sorted(game).index(v)
    return cut[place] if cut else 1 + place * workers // len(game) if workers else 0


def join(game, updates, taken):
    """The least map that is at least each of the updates that were taken."""
    f = zeros(game)
    for v, m in (updates[n] for n in taken):
        if not at_most(m, f[v]):
            f[v] = m
    return f


def refusal(game, script, updates, event):
    """Why an event is refused, or None."""
    word, *numbers = event
    least, most = 0 if word == "deliver" else 1, script[0]
    if word == "central":
        return None
    if not least <= numbers[0] <= most:
        return f"no replica {numbers[0]}"
    if word == "lift" and worker_of(game, script, numbers[1]) != numbers[0]:
        return f"vertex {numbers[1]} is not of worker {numbers[0]}"
    if word == "deliver" and numbers[1] >= len(updates):
        return f"update {numbers[1]} was never made"
    return None


def replay(game, script):
    """(the updates, what each replica took) after the events, or the line about the first that is refused."""
    bounds, updates, taken = bounds_of(game), [], [[] for _ in range(script[0] + 1)]
    measures = all_measures(bounds)
    for place, event in enumerate(script[2]):
        why = refusal(game, script, updates, event)
        if why:
            return f"parsolve: event {place}: {why}\n"
        word, *numbers = event
        if word == "deliver":
            taken[numbers[0]].append(numbers[1])
        elif word == "restart":
            taken[numbers[0]] = []
        else:
            replica, v = [0, *numbers][-2:]
            f = join(game, updates, taken[replica])
            m = least_serving(game, bounds, measures, f, v)
            if not at_most(m, f[v]):
                taken[replica].append(len(updates))
                updates.append((v, m))
    return updates, taken


def script_text(script):
    workers, cut, events = script
    head = [f"workers {workers}", f"cut {','.join(map(str, cut))}"] if cut else [f"workers {workers}"]
    lines = head + [" ".join(map(str, event)) for event in events]
    return "".join(f"{line};\n" for line in lines)


def world_text(game, updates, taken):
    made = [f"update {n} {v} {shown(m)};\n" for n, (v, m) in enumerate(updates)]
    took = [f"replica {r} taken {','.join(map(str, it)) or '-'};\n" + measures_text(join(game, updates, it))
            for r, it in enumerate(taken)]
    return "".join(made + took)
