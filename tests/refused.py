"""Texts that are refused: every place of a text of a game or of a solution with every token that isn't allowed there, and texts that end too
early. The message for each was worked out by hand."""
import subprocess

import case

TOO_LARGE = "4294967296"
# numbers, words, marks, a string, a string without its second quote, a byte with which no token begins, and the end
TOKENS = ["0", "7", TOO_LARGE, "x", "parity", "start", "paritysol", ";", ",", '"a"', '"a;', "$", ""]

# beginnings of a text of a game, and the tokens that may follow
OF_A_GAME = {
    "": ["parity", "start", "0", "7", ""],
    "parity": ["0", "7"],
    "parity 1": [";"],
    "parity 1;": ["start", "0", "7", ""],
    "start": ["0", "7"],
    "start 1": [";"],
    "start 1;": ["0", "7", ""],
    "parity 1; start": ["0", "7"],
    "parity 1; start 1": [";"],
    "5": ["0", "7"],
    "5 1": ["0"],
    "5 1 0": ["0", "7"],
    "5 1 0 5": [",", '"a"', ";"],
    "5 1 0 5,": ["0", "7"],
    '5 1 0 5 "a"': [";"],
    "5 1 0 5;": ["0", "7", ""],
}

TWO = "parity 1;\n0 1 0 0,1;\n1 2 1 0;\n--\n"
# the same for a solution of this game
OF_A_SOLUTION = {
    "": ["paritysol", "0", "7", ""],
    "paritysol": ["0", "7"],
    "paritysol 1": [";"],
    "paritysol 1;": ["0", "7", ""],
    "0": ["0"],
    "0 0": ["0", "7", ";"],
    "0 0 1": [";"],
    "0 1 5": [";"],
    "0 0 1;": ["0", "7", ""],
}


def misplaced_tokens(program):
    """What is wrong with the program's message about a misplaced token, or None."""
    for command, head, places in (("measure", "", OF_A_GAME), ("check", TWO, OF_A_SOLUTION)):
        for front, may_follow in places.items():
            for token in TOKENS:
                if token not in may_follow:
                    what = "number too large" if token == TOO_LARGE else "syntax error"
                    why = refusal_differs(program, command, f"{head}{front} {token}", f"{what} at byte {len(front) + 1}")
                    if why is not None:
                        return why
    return None


def refusal_differs(program, command, text, told):
    """Why the text isn't refused with the right message, or None."""
    ran = subprocess.run([program, command], input=text.encode(), capture_output=True, timeout=120)
    if (ran.returncode, ran.stdout, case.without_notes(ran.stderr)) == (1, b"", f"parsolve: {told}\n".encode()):
        return None
    return f"{command} on {text[:100]!r}..{text[-40:]!r}: status {ran.returncode}, {ran.stdout[:100]!r}, {ran.stderr!r}, wanted {told!r}"


# two states take turns: the controller sets its proposition in every other step
TURNS = 'HOA: v1 Start: 0 AP: 1 "g" controllable-AP: 0 Acceptance: 1 Inf(0) --BODY-- State: 0 [0] 1 {0} State: 1 [!0] 0 {0} --END--'


def texts_that_end_too_early(program):
    """A game's text that lacks only its last newline is answered; each other text that is cut, an automaton's and a formula's too, is
    refused, and nothing is written. What the program does instead, or None."""
    game = TWO.removesuffix("--\n")
    for command, text, answered in (("solve", game, len(game) - 1), ("synth", TURNS, None), ("automaton", "(G (a -> F b))", None)):
        for end in range(len(text)):
            ran = subprocess.run([program, command], input=text[:end], capture_output=True, text=True, timeout=120)
            if (ran.returncode, bool(ran.stdout), bool(ran.stderr)) != ((0, True, False) if end == answered else (1, False, True)):
                return f"{command} on {text[:end]!r}: status {ran.returncode}, {ran.stdout!r}, {ran.stderr!r}"
    return None
