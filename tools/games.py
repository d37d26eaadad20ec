"""Games and solutions as tools/draw and tools/circuit read them, the part that a solution reaches, and the words of an automaton for the
vertices and edges of its game."""
import re
from typing import NamedTuple

from automata import label_of
from texts import Fault, Tokens, content_of, shown

GREATEST_PRIORITY = 65535
GAME_BLANKS = re.compile(rb"[\t-\r ]*")
GAME_TOKEN = re.compile(rb'(?P<number>[0-9]+)|(?P<word>[a-z]+)|(?P<mark>[;,])|(?P<string>"[^"]*")')
VERDICT = re.compile(rb"(?:WINS|LEAVES \d{1,10} \d{1,10}|CYCLE \d{1,10} \d{1,10}(?:,\d{1,10})*)\s*")


class Vertex(NamedTuple):
    priority: int
    owner: int
    successors: list
    name: str


class Game(NamedTuple):
    vertices: dict  # by their identifiers
    start: object  # the identifier after `start`, or None


class Answer(NamedTuple):
    winner: int
    choice: object  # where the winner goes, or None if it doesn't own the vertex


class Part(NamedTuple):
    """A part of a game: where it begins, or None; its edges, by vertex in the order in which the vertices are met; and the vertices
    that are so far away that edges of theirs are left out."""
    first: object
    edges: dict
    cut: set


def name_of(string):
    """The name of a proposition, in quotes if it could be taken for something else."""
    name = shown(content_of(string))
    return name if re.fullmatch(r"[^\W\d][\w-]*", name) and name not in ("t", "f") else f'"{name}"'


def tokens_of(text, *clauses):
    """The tokens of a game or a solution after clauses such as `parity N;`, if there are any, and the number of each clause."""
    tokens, numbers = Tokens(text, GAME_TOKEN, lambda text, place: GAME_BLANKS.match(text, place).end()), {}
    for word in clauses:
        if tokens.bytes == word:
            tokens.go_on()
            numbers[word] = tokens.take("number")
            tokens.take("mark", b";")
    return tokens, numbers


def refuse_dead_end(number, owner, place):
    raise Fault(f"vertex {number} has no successor at byte {place}: a dead end isn't read. If its owner loses there, give it itself as its successor "
                f"and the priority {1 - owner}")


def read_vertex(tokens):
    """The identifier and the vertex of a line."""
    number, priority, owner = tokens.take("number"), tokens.take_below(GREATEST_PRIORITY + 1), tokens.take_below(2)
    if tokens.kind == "string" or tokens.bytes == b";":
        refuse_dead_end(number, owner, tokens.place)
    successors = {tokens.take("number")}
    while tokens.bytes == b",":
        tokens.go_on()
        successors.add(tokens.take("number"))
    name = shown(tokens.take("string")[1:-1]) if tokens.kind == "string" else ""
    tokens.take("mark", b";")
    return number, Vertex(priority, owner, sorted(successors), name)


def read_game(text):
    """The game of a text, its vertices by rising identifiers."""
    (tokens, numbers), found = tokens_of(text, b"parity", b"start"), {}
    while tokens.kind != "end":
        number, vertex = read_vertex(tokens)
        if number in found:
            raise Fault(f"vertex {number} is defined twice")
        found[number] = vertex
    if not found:
        raise Fault("no vertex")
    vertices = dict(sorted(found.items()))
    for number, vertex in vertices.items():
        for successor in vertex.successors:
            if successor not in vertices:
                raise Fault(f"vertex {number} has successor {successor}, which no line defines")
    return Game(vertices, numbers.get(b"start"))


def read_solution(text, game):
    """The solution of a text: the answer for each identifier."""
    (tokens, _), solution = tokens_of(text, b"paritysol"), {}
    while tokens.kind != "end":
        number, winner = tokens.take("number"), tokens.take_below(2)
        choice = tokens.take("number") if tokens.kind == "number" else None
        tokens.take("mark", b";")
        if number in solution:
            raise Fault(f"vertex {number} is answered twice")
        vertex = game.vertices.get(number)
        if vertex is None or (winner == vertex.owner and choice not in [None, *vertex.successors]):
            raise Fault(f"line of vertex {number} does not fit the game")
        solution[number] = Answer(winner, choice if winner == vertex.owner else None)
    for number, vertex in game.vertices.items():
        if number not in solution:
            raise Fault(f"vertex {number} has no answer")
        if solution[number] == (vertex.owner, None):
            raise Fault(f"the line of vertex {number} has no successor: a winner that owns a vertex needs a strategy there, not only its name")
    return solution


def read_verdict(text, game):
    """The edges that a verdict names, and what it says about them."""
    if not VERDICT.fullmatch(text):
        raise Fault("a verdict is WINS, LEAVES V W or CYCLE P V,V,..")
    if text.startswith(b"WINS"):
        return [], "WINS: each winner wins by the heavy edges"
    first, *others = map(int, re.findall(rb"\d+", text))
    if text.startswith(b"LEAVES"):
        edges, said = [(first, *others)], "LEAVES: the red edge goes to a vertex of the other winner"
    else:
        edges = list(zip(others, others[1:] + others[:1]))
        said = f"CYCLE: {first} is the greatest priority on the red cycle, so {('Even', 'Odd')[first % 2]} wins it"
    for number, successor in edges:
        if number not in game.vertices or successor not in game.vertices[number].successors:
            raise Fault(f"the game has no edge from {number} to {successor}")
    return edges, said


def followed(game, solution, number):
    """The successors to which a play that follows the solution can go on from a vertex: all of them if the winner doesn't own it, or
    if nothing is chosen."""
    choice = solution[number].choice if number in solution else None
    return game.vertices[number].successors if choice is None else [choice]


def reached(game, solution, first, depth=None):
    """The part that a solution, which can be empty, reaches from a vertex, in `depth` steps if that is given."""
    distance, order = {first: 0}, [first]
    for number in order:  # it grows as vertices are met
        for successor in followed(game, solution, number) if distance[number] != depth else ():
            if successor not in distance:
                distance[successor] = distance[number] + 1
                order.append(successor)
    edges = {number: [it for it in followed(game, solution, number) if it in distance] for number in order}
    return Part(first, edges, {number for number in order if len(edges[number]) < len(followed(game, solution, number))})


def whole(game):
    """All of a game."""
    return Part(None, {number: vertex.successors for number, vertex in game.vertices.items()}, set())


class Words:
    """The words for the vertices and edges of an automaton's game."""

    def __init__(self, automaton):
        self.automaton = automaton
        names = [name_of(string) for string in automaton.propositions]
        own = set(automaton.controllable or ())
        self.inputs, self.outputs = ([place for place in range(len(names)) if (place in own) == side] for side in (False, True))
        self.input_names, self.output_names = ([names[place] for place in part] for part in (self.inputs, self.outputs))

    def start(self, game):
        """The vertex at which the game begins, or None."""
        name = f"s{self.automaton.start}"
        return next((number for number, vertex in game.vertices.items() if vertex.name == name), None)

    def state(self, number):
        string = self.automaton.states[number].name if number in self.automaton.states else b""
        return shown(content_of(string)) or f"state {number}"

    def parts(self, name):
        """(state, set, input letter) of a vertex, from its name; each but the state can be None. `dead` has none of them."""
        found = re.fullmatch(r"s(\d{1,10})(?:/(\d{1,10})|:(\d{1,10}))?", name)
        numbers = [it and int(it) for it in found.groups()] if found else [self.automaton.count, None, None]
        limits = self.automaton.count, self.automaton.sets, 1 << len(self.inputs)
        if any(number is not None and number >= limit for number, limit in zip(numbers, limits)):
            raise Fault(f"the automaton's game has no vertex that is named {name}")
        return numbers

    def of_vertex(self, name):
        if name == "dead":
            return "the run has ended"
        state, counting, letter = self.parts(name)
        letter = "" if letter is None else ": " + label_of(1 << letter, self.input_names)
        return self.state(state) + letter + ("" if counting is None else f" {{{counting}}}")

    def letter(self, inputs, outputs):
        """The letter of the automaton that consists of these two."""
        return sum((inputs >> bit & 1) << place for bit, place in enumerate(self.inputs)) \
            + sum((outputs >> bit & 1) << place for bit, place in enumerate(self.outputs))

    def arrival(self, state, sets):
        """The name of the arrival at a state with these sets."""
        counting = self.automaton.shape.counting(sets)
        return f"s{state}" + ("" if counting is None else f"/{counting}")

    def of_edges(self, name):
        """For the name of an answer, the output letters that lead to each arrival, by the arrival's name; nothing for another vertex."""
        state, _, letter = self.parts(name) if name != "dead" else (0, None, None)
        found = {}
        for outputs in range(1 << len(self.outputs)) if letter is not None else ():
            made = self.automaton.step(state, self.letter(letter, outputs))
            arrival = "dead" if made is None else self.arrival(*made)
            found[arrival] = found.get(arrival, 0) | 1 << outputs
        return {arrival: label_of(letters, self.output_names) for arrival, letters in found.items()}
