"""Games and automata at the limits and just over them: the message or the answer for each was worked out by hand."""
import subprocess

import case
from refused import refusal_differs

VERTICES, EDGES = 1_048_576, 8_388_608
SUCCESSORS = 2_048  # of each line of a game with as many edges as there can be
LINES = EDGES // SUCCESSORS

SIXTEEN = "HOA: v1 Acceptance: 0 t AP: 16 " + " ".join(f'"{it}"' for it in "abcdefghijklmnop") + " "
LABEL = "HOA: v1 Start: 0 Acceptance: 0 t --BODY-- State: 0 ["
END = "] 0 --END--"
MANY = "automaton too large"

# counts and numbers at the limit, and states over it, each with the message, or None if the automaton is read
COUNTS = [
    ('States: 65535 Start: 0 Acceptance: 0 t --BODY-- --END--', None),
    ('States: 65535 Start: 65534 Acceptance: 0 t --BODY-- --END--', None),
    ('Start: 65534 Acceptance: 0 t --BODY-- --END--', None),
    ('Start: 0 Acceptance: 0 t tool: 4294967295 x: 00000000004294967295 --BODY-- --END--', None),
    ('Start: 0 Acceptance: 0 t acc-name: parity max even 4294967295 --BODY-- --END--', None),
    ('Start: 0 Acceptance: 0 t --BODY-- State: 65534 --END--', None),
    ('States: 65535 Start: 0 Acceptance: 0 t --BODY-- State: 65534 --END--', None),
    ('Start: 0 Acceptance: 0 t --BODY-- State: 65535 ?', MANY),
    ('States: 65535 Start: 0 Acceptance: 0 t --BODY-- State: 65535 ?', MANY),
    ('Start: 0 Acceptance: 0 t --BODY-- State: 0 [t] 65534 --END--', None),
    ('States: 65535 Start: 0 Acceptance: 0 t --BODY-- State: 0 [t] 65534 --END--', None),
    ('Start: 0 Acceptance: 0 t --BODY-- State: 0 [t] 65535 ?', MANY),
    ('States: 65535 Start: 0 Acceptance: 0 t --BODY-- State: 0 [t] 65535 ?', MANY),
]

# at most 16,777,216 states times letters, counted after the end and before two edges are compared; the least letter of the last row has
# propositions 0, 7, 10 and 15
TABLES = [
    ('Start: 0 --BODY-- --END--', None),
    ('Start: 0 controllable-AP: 15 --BODY-- --END--', None),
    ('States: 256 Start: 0 --BODY--  --END--', None),
    ('Start: 255 --BODY--  --END--', None),
    ('Start: 0 --BODY-- State: 0 [f] 255 --END--', None),
    ('States: 257 Start: 0 --BODY--  --END--', MANY),
    ('Start: 256 --BODY--  --END--', MANY),
    ('Start: 0 --BODY-- State: 0 [f] 256 --END--', MANY),
    ('States: 257 Start: 0 --BODY-- State: 0 [t] 0 [t] 1 --END--', MANY),
    ('States: 257 Start: 0 --BODY-- State: 0 [t] 257 --END--', 'number out of range at byte 138'),
    ('Start: 0 --BODY-- State: 1 [15&7&0] 1 [15&10&7&6] 0 [15&10&!6] 0 --END--', 'state 1 is not deterministic at letter 33921'),
]

# neighbours don't add up, a `!` counts around its operand alone, the bracket after `Inf` or `Fin` is no level, and a comment nested too deep
# is refused as such even if it doesn't end
NESTED = [
    (LABEL + '(' * 8192 + 't' + ')' * 8192 + END, None),
    (LABEL + '(' * 8193 + 't' + ')' * 8193 + END, MANY),
    (LABEL + '!' * 8192 + 't' + END, None),
    (LABEL + '!' * 8193 + 't' + END, MANY),
    (LABEL + '!(' * 4096 + 't' + ')' * 4096 + END, None),
    (LABEL + '!(' * 4097 + 't' + ')' * 4097 + END, MANY),
    (LABEL + '((!' * 2730 + 't' + '))' * 2730 + END, None),
    (LABEL + '((!' * 2731 + 't' + '))' * 2731 + END, MANY),
    (LABEL + '(' * 8192 + '!t' + ')' * 8192 + END, MANY),
    (LABEL + '(' * 8191 + '!t & !!t' + ')' * 8191 + END, MANY),
    (LABEL + '(' * 8191 + '!t & !t & (t | f)' + ')' * 8191 + END, None),
    (LABEL + '!' * 8191 + '(t) & !(t)' + END, None),
    (LABEL + '!t & (' * 1000 + 't' + ')' * 1000 + END, None),
    (LABEL + '(t) | ' * 9000 + 't' + END, None),
    (LABEL + '!t & ' * 9000 + 't' + END, None),
    (LABEL + '(' * 8193 + END, MANY),
    ('HOA: v1 Start: 0 Acceptance: 1 ' + '(' * 8192 + 'Inf(0)' + ')' * 8192 + ' --BODY-- --END--', None),
    ('HOA: v1 Start: 0 Acceptance: 1 ' + '(' * 8193 + 'Inf(0)' + ')' * 8193 + ' --BODY-- --END--', MANY),
    ('HOA: v1 Start: 0 name: x ' + '/*' * 8192 + '*/' * 8192 + ' Acceptance: 0 t --BODY-- --END--', None),
    ('HOA: v1 Start: 0 name: x ' + '/*' * 8193 + '*/' * 8193 + ' Acceptance: 0 t --BODY-- --END--', MANY),
    ('HOA: v1 Start: 0 name: x ' + '/*' * 8193 + ' Acceptance: 0 t --BODY-- --END--', MANY),
    ('HOA: v1 Start: 0 name: x ' + '/*' * 8192 + '*/' * 8191 + ' Acceptance: 0 t --BODY-- --END--', 'syntax error at byte 25'),
]


def fan(identifier, successors):
    """A line that leads to the given number of vertices, from 0 on."""
    return f"{identifier} 1 1 {','.join(map(str, range(successors)))};\n"


def games_of_many_vertices():
    """(text, the message, or the measures of the game that it spells), for games with as many vertices as there can be."""
    rising, greatest = range(VERTICES), 2**32 - 1
    falling = range(greatest, greatest - 4096 * VERTICES, -4096)
    for identifiers, first, free in ((rising, None, VERTICES), (falling, greatest, greatest - 1)):
        text = "".join(f"{v} 0 1 {v if first is None else first};\n" for v in identifiers)
        yield text, "".join(f"{v} -;\n" for v in sorted(identifiers))
        yield f"{text}{free} 0 0 {max(identifiers)};", "more than 1048576 vertices"
        yield f"{text}{max(identifiers)} 0 0 0;", f"vertex {max(identifiers)} is defined twice"


def games_of_many_edges():
    """The same for games with as many edges as there can be, where Odd owns all vertices and their priority is odd. A repeated successor is no
    edge."""
    fans = "".join(fan(v, SUCCESSORS) for v in range(LINES - 1))
    full, short = fans + fan(LINES - 1, SUCCESSORS), fans + fan(LINES - 1, SUCCESSORS - 1)
    yield full, "".join(f"{v} T;\n" for v in range(LINES))
    yield f"{full}{LINES} 0 0 0;", "more than 8388608 edges"
    yield f"{full}5 0 0 0;", "vertex 5 is defined twice"
    yield f"{short}{LINES} 0 0 5,4;", "more than 8388608 edges"
    yield f"{short}{LINES} 0 0 7,7,7,7;", "".join(f"{v} T;\n" for v in range(LINES + 1))
    yield f"{short}{LINES} 0 0 7,7,7,7;{LINES + 1} 0 0 5;", "more than 8388608 edges"


def automata():
    """(text, the message, or None if it spells an automaton)."""
    yield from (("HOA: v1 " + text, told) for text, told in COUNTS)
    yield from ((SIXTEEN + text, told) for text, told in TABLES)
    yield from NESTED
    # a condition of a parity shape over as many sets as there can be, and the same except for what follows it
    condition = "".join(f"Fin({odd}) & (Inf({odd - 1}) | (" for odd in range(4095, 1, -2)) + "Fin(1) & Inf(0)" + "))" * 2047
    yield f"HOA: v1 Start: 0 Acceptance: 4096 {condition} --BODY-- State: 0 {{4095}} [t] 0 {{0}} --END--", None
    yield f"HOA: v1 Start: 0 Acceptance: 4096 {condition} & t --BODY-- --END--", "acceptance is not a supported parity condition"


def answer_differs(program, text, measures):
    """Why the measures of the game that the text spells aren't these, or None."""
    ran = subprocess.run([program, "measure"], input=text, capture_output=True, text=True, timeout=120)
    if (ran.returncode, ran.stdout) == (0, measures):
        return None
    return f"measure on {text[:40]!r}..{text[-40:]!r}: status {ran.returncode}, {ran.stdout[:100]!r}, {ran.stderr!r}"


def of_games(program, games):
    """What the program answers wrongly about games at the limits or just over them, or None."""
    for text, wanted in games:
        is_told = not wanted.endswith("\n")
        why = refusal_differs(program, "measure", text, wanted) if is_told else answer_differs(program, text, wanted)
        if why is not None:
            return why
    return None


def of_automata(program):
    """The same for automata. The game of one that is read can be too large."""
    for text, told in automata():
        ran = subprocess.run([program, "game"], input=text.encode(), capture_output=True, timeout=120)
        fault = case.without_notes(ran.stderr).decode()
        is_read = ran.returncode == 0 or fault == "parsolve: game of the automaton too large\n"
        if not (is_read if told is None else (ran.returncode, ran.stdout, fault) == (1, b"", f"parsolve: {told}\n")):
            return f"game on {text[:80]!r}..{text[-60:]!r}: status {ran.returncode}, {ran.stdout[:100]!r}, {ran.stderr!r}, wanted {told!r}"
    return None
