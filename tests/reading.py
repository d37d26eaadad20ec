"""Texts that are read, in spellings that people and tools write, each with its meaning, worked out by hand. A line describes an automaton, and
from it a plain text with an edge for each letter is written: both texts must get the same game, and the same answer of `synth`. A game must
get the same answer as its printed layout."""
import re
import subprocess

import case
import controllers

# ---- automata: `2 states from 1, a*, b, 2 sets, MinOdd: 0.1>1[0, 1]` says that a is the controller's, and that from state 0 the letter 1 leads
# to state 1, where the sets 0 and 1 are met

# headers in any order and headers that are skipped, names of propositions, comments, white space, and counts of states
WHOLE = [
    ('HOA: v1 Start: 1 AP: 2 "a" "b" States: 2 Acceptance: 2 Fin(0) & Inf(1) controllable-AP: 0 --BODY-- --END--',
     "2 states from 1, a*, b, 2 sets, MinOdd:"),
    ('HOA: v1 Acceptance: 2 Fin(0) & Inf(1) controllable-AP: 0 AP: 2 "a" "b" Start: 1 States: 2 --BODY-- --END--',
     "2 states from 1, a*, b, 2 sets, MinOdd:"),
    ('HOA: v1 controllable-AP: 0 States: 2 Start: 1 Acceptance: 2 Fin(0) & Inf(1) AP: 2 "a" "b" --BODY-- --END--',
     "2 states from 1, a*, b, 2 sets, MinOdd:"),
    ('HOA: v1 AP: 2 "a" "b" Acceptance: 2 Fin(0) & Inf(1) States: 2 controllable-AP: 0 0 0 Start: 1 --BODY-- --END--',
     "2 states from 1, a*, b, 2 sets, MinOdd:"),
    ('HOA: v1 Start: 0 name: "a b" /* 4294967296 */ Acceptance: 1 Inf(0) --BODY-- --END--', "1 states from 0, 1 sets, MaxEven:"),
    ('HOA: v1 Start: 0 name: "4294967296\n/* " Acceptance: 1 Inf(0) --BODY-- --END--', "1 states from 0, 1 sets, MaxEven:"),
    ('HOA: v1 Start: 0 tool: "ltl2dpa" "1.0" tool: "again" Acceptance: 1 Inf(0) --BODY-- --END--', "1 states from 0, 1 sets, MaxEven:"),
    ("HOA: v1 Start: 0 properties: deterministic complete trans-acc properties: state-acc Acceptance: 1 Inf(0) --BODY-- --END--",
     "1 states from 0, 1 sets, MaxEven:"),
    ("HOA: v1 Start: 0 properties: universal no-univ-branch Acceptance: 1 Inf(0) --BODY-- --END--", "1 states from 0, 1 sets, MaxEven:"),
    ("HOA: v1 Start: 0 acc-name: parity min odd 5 Acceptance: 1 Inf(0) --BODY-- --END--", "1 states from 0, 1 sets, MaxEven:"),
    ("HOA: v1 Start: 0 acc-name: Rabin 1 acc-name: Buchi Acceptance: 1 Inf(0) --BODY-- --END--", "1 states from 0, 1 sets, MaxEven:"),
    ("HOA: v1 Start: 0 acc-name: Acceptance: 1 Inf(0) --BODY-- --END--", "1 states from 0, 1 sets, MaxEven:"),
    ("HOA: v1 Start: 0 acc-name: parity max even 4294967295 Acceptance: 1 Inf(0) --BODY-- --END--", "1 states from 0, 1 sets, MaxEven:"),
    ('HOA: v1 Start: 0 _x: _y _: 007 x-y_z: t f 0 "" Acceptance: 1 Inf(0) --BODY-- --END--', "1 states from 0, 1 sets, MaxEven:"),
    ('HOA: v1 Start: 0 name: "States: 7 \\" --BODY--" Acceptance: 1 Inf(0) --BODY-- --END--', "1 states from 0, 1 sets, MaxEven:"),
    ('HOA: v1 Start: 0 owlArgs: "ltl2dpa" "-c" z: HOA v1 States Inf Acceptance: 1 Inf(0) --BODY-- --END--', "1 states from 0, 1 sets, MaxEven:"),
    ('HOA: v1 Start: 0 start: 5 states: 9 ap: 1 "b" alias: a 0 controllable-ap: 3 Acceptance: 1 Inf(0) --BODY-- --END--',
     "1 states from 0, 1 sets, MaxEven:"),
    ("HOA: v1 Start: 0 controllable-AP-x: 7 controllable-A: 9 Acceptance: 1 Inf(0) --BODY-- --END--", "1 states from 0, 1 sets, MaxEven:"),
    ("HOA: v1 Start: 0 Acceptance: 0 t AP: 0 --BODY-- --END--", "1 states from 0, 0 sets, Always:"),
    ("HOA: v1 Start: 0 Acceptance: 0 t controllable-AP: --BODY-- --END--", "1 states from 0, 0 sets, Always:"),
    ("HOA: v1 Start: 0 Acceptance: 0 t AP: 0 controllable-AP: --BODY-- --END--", "1 states from 0, 0 sets, Always:"),
    ('HOA: v1 Start: 0 Acceptance: 0 t AP: 1 "a\\"b" --BODY-- --END--', '1 states from 0, a"b, 0 sets, Always:'),
    ('HOA: v1 Start: 0 Acceptance: 0 t AP: 1 "\\a\\\\\\n" --BODY-- --END--', "1 states from 0, a\\n, 0 sets, Always:"),
    ('HOA: v1 Start: 0 Acceptance: 0 t AP: 1 " " --BODY-- --END--', "1 states from 0,  , 0 sets, Always:"),
    ('HOA: v1 Start: 0 Acceptance: 0 t AP: 1 "/* a */ --BODY--" --BODY-- --END--', "1 states from 0, /* a */ --BODY--, 0 sets, Always:"),
    ('HOA: v1 Start: 0 Acceptance: 0 t AP: 1 "ä€~" --BODY-- --END--', "1 states from 0, ä€~, 0 sets, Always:"),
    ('HOA: v1 Start: 0 Acceptance: 0 t AP: 2 "a" "a" controllable-AP: 1 --BODY-- --END--', "1 states from 0, a, a*, 0 sets, Always:"),
    ('HOA: v1 Start: 0 Acceptance: 0 t AP:2"a""b" controllable-AP: 1 0 1 --BODY-- --END--', "1 states from 0, a*, b*, 0 sets, Always:"),
    ('/* a /* b */ c */HOA:/**/v1/* '
     '*/Start:/**/0/**/AP:/**/1/**/"a"/**/controllable-AP:/**/0/**/Acceptance:/**/1/**/Fin/**/(/**/0/**/)/**/--BODY--/**/State:/**/0/**/"s"/**/[/*'
     '*/!/**/0/**/]/**/0/**/{/**/0/**/}/**/[/**/0/**/]/**/0/**/--END--/**/',
     "1 states from 0, a*, 1 sets, MaxOdd: 0.0>0[0] 0.1>0[]"),
    ('/* HOA: v2 */ HOA: v1 /* States: 7 */ Start: 0 AP: 1 "a" controllable-AP: 0 /*/*/**/*/*/ Acceptance: 1 Fin(0) --BODY-- State: 0 [!0] 0 {0} '
     '[0] 0 --END-- /* HOA: v1 */\n/* " */',
     "1 states from 0, a*, 1 sets, MaxOdd: 0.0>0[0] 0.1>0[]"),
    ('HOA: v1 Start: 0 AP: 1 "a" controllable-AP: 0 Acceptance: 1 Fin(0) --BODY--/***/State: 0 [!0] 0 {0 /* 5 } */} [0] 0 /* & 1 */ --END--/* * / '
     '/* ? */ @ */',
     "1 states from 0, a*, 1 sets, MaxOdd: 0.0>0[0] 0.1>0[]"),
    ('HOA:v1 States:1Start:0AP:1"a"Acceptance:2Inf(0)|Fin(1)--BODY--State:0[!0]0{0 1}[0]0--END--',
     "1 states from 0, a, 2 sets, MinEven: 0.0>0[0, 1] 0.1>0[]"),
    ('HOA:v1/**/States:1Start:0AP:1"a"Acceptance:2(Inf(0)|Fin(1))name:"a"--BODY--State:0"s"{}[!0]0{1 0}[0]0{}--END--',
     "1 states from 0, a, 2 sets, MinEven: 0.0>0[0, 1] 0.1>0[]"),
    ('\n\r\t HOA:\nv1\r\nStates:\n1\r\nStart:\t0 '
     'AP:\n1\n"a"\nAcceptance:\n2\nInf\n(\n0\n)\n|\nFin\n(\n1\n)\n--BODY--\nState:\n0\n[\n!\n0\n]\n0\n{\n0\n1\n}\n[\n0\n]\n0\n--END--\n\r\t ',
     "1 states from 0, a, 2 sets, MinEven: 0.0>0[0, 1] 0.1>0[]"),
    ('HOA:v1 Start:00000000000000000000AP:01"a"Acceptance:002Inf(000)|Fin(01)--BODY--State:0[!00]0{00 01}[0]000--END--',
     "1 states from 0, a, 2 sets, MinEven: 0.0>0[0, 1] 0.1>0[]"),
    ("HOA: v1 Acceptance: 0 t Start:0--BODY-- --END--", "1 states from 0, 0 sets, Always:"),
    ("HOA: v1 Acceptance: 0 t Start: 4 --BODY-- --END--", "5 states from 4, 0 sets, Always:"),
    ("HOA: v1 Acceptance: 0 t Start: 0 --BODY-- State: 3 --END--", "4 states from 0, 0 sets, Always:"),
    ("HOA: v1 Acceptance: 0 t Start: 1 --BODY-- State: 0 [t] 2 --END--", "3 states from 1, 0 sets, Always: 0.0>2[]"),
    ("HOA: v1 Acceptance: 0 t Start: 1 --BODY-- State: 5 [t] 2 --END--", "6 states from 1, 0 sets, Always: 5.0>2[]"),
    ("HOA: v1 Acceptance: 0 t Start: 0 --BODY-- State: 1 [f] 9 --END--", "10 states from 0, 0 sets, Always:"),
    ("HOA: v1 Acceptance: 0 t Start: 2 --BODY-- State: 1 [t] 0 State: 0 --END--", "3 states from 2, 0 sets, Always: 1.0>0[]"),
    ("HOA: v1 Acceptance: 0 t States: 4 Start: 3 --BODY-- State: 1 [t] 3 --END--", "4 states from 3, 0 sets, Always: 1.0>3[]"),
    ("HOA: v1 Acceptance: 0 t Start: 3 States: 4 --BODY-- --END--", "4 states from 3, 0 sets, Always:"),
    ("HOA: v1 Acceptance: 0 t States: 2 Start: 0 --BODY-- State: 1 State: 0 [t] 1 --END--", "2 states from 0, 0 sets, Always: 0.0>1[]"),
    ("HOA: v1 Start: 0 Acceptance: 0 (f) --BODY-- State: 0 [t] 1 {} [t] 1 State: 1 {} [t] 1 --END--",
     "2 states from 0, 0 sets, Never: 0.0>1[] 1.0>1[]"),
]

# texts after a head, and the steps that they give: sets are on states and on edges
SETS = [
    ("State: 0 [t] 1 --END--", " 0.0>1[]"),
    ("State: 0 {} [t] 1 {} --END--", " 0.0>1[]"),
    ("State: 0 {2} [t] 1 --END--", " 0.0>1[2]"),
    ("State: 0 [t] 1 {2} --END--", " 0.0>1[2]"),
    ("State: 0 {2} [t] 1 {2} --END--", " 0.0>1[2]"),
    ("State: 0 {3 1} [t] 1 {2 0} --END--", " 0.0>1[0, 1, 2, 3]"),
    ("State: 0 {3 3 1 3} [t] 1 {1 0 0} --END--", " 0.0>1[0, 1, 3]"),
    ('State: 0 "x" {3} State: 1 {0} [t] 0 {1} --END--', " 1.0>0[0, 1]"),
    ("State: 1 [t] 1 {3 2 1 0} State: 0 {1} [t] 0 --END--", " 0.0>0[1] 1.0>1[0, 1, 2, 3]"),
]
# `!` binds more than `&`, and `&` more than `|`; of edges that match and agree, on the target and on the greatest set, the first counts
LABELS = [
    ("State: 0 [0] 1 {0} [0] 1 {0} [!0] 0 [0] 1 {0} [!0] 0 --END--", " 0.0>0[] 0.1>1[0] 0.2>0[] 0.3>1[0]"),
    ("State: 0 {1} [0] 1 {0} State: 1 [0] 1 {0} [0] 1 {0} --END--", " 0.1>1[0, 1] 0.3>1[0, 1] 1.1>1[0] 1.3>1[0]"),
    ("State: 0 [t] 1 --END--", " 0.0>1[] 0.1>1[] 0.2>1[] 0.3>1[]"),
    ("State: 0 [f] 1 --END--", ""),
    ("State: 0 [0] 1 --END--", " 0.1>1[] 0.3>1[]"),
    ("State: 0 [1] 1 --END--", " 0.2>1[] 0.3>1[]"),
    ("State: 0 [!0] 1 --END--", " 0.0>1[] 0.2>1[]"),
    ("State: 0 [!!0] 1 --END--", " 0.1>1[] 0.3>1[]"),
    ("State: 0 [!!!t] 1 --END--", ""),
    ("State: 0 [0&1] 1 --END--", " 0.3>1[]"),
    ("State: 0 [0|1] 1 --END--", " 0.1>1[] 0.2>1[] 0.3>1[]"),
    ("State: 0 [0&!1] 1 --END--", " 0.1>1[]"),
    ("State: 0 [!0&1] 1 --END--", " 0.2>1[]"),
    ("State: 0 [!(0&1)] 1 --END--", " 0.0>1[] 0.1>1[] 0.2>1[]"),
    ("State: 0 [!0|1] 1 --END--", " 0.0>1[] 0.2>1[] 0.3>1[]"),
    ("State: 0 [!(0|1)] 1 --END--", " 0.0>1[]"),
    ("State: 0 [((0))&(!(1))] 1 --END--", " 0.1>1[]"),
    ("State: 0 [0] 1 [!0] 0 --END--", " 0.0>0[] 0.1>1[] 0.2>0[] 0.3>1[]"),
    ("State: 0 [0] 1 [t] 1 --END--", " 0.0>1[] 0.1>1[] 0.2>1[] 0.3>1[]"),
    ("State: 0 [0&1] 1 {1} [0] 1 {0 1} --END--", " 0.1>1[0, 1] 0.3>1[1]"),
    ("State: 0 [0] 1 {0 1} [0&1] 1 {1} --END--", " 0.1>1[0, 1] 0.3>1[0, 1]"),
    ("State: 0 [1&0] 0 {0} [!0] 1 [0] 0 {0 0} --END--", " 0.0>1[] 0.1>0[0] 0.2>1[] 0.3>0[0]"),
    ("State: 0 {1} [0] 1 {0} [1] 1 [0|1] 1 --END--", " 0.1>1[0, 1] 0.2>1[1] 0.3>1[0, 1]"),
    ("State: 0 [f] 1 [t] 0 --END--", " 0.0>0[] 0.1>0[] 0.2>0[] 0.3>0[]"),
    ("State: 0 [t] 0 {} [t] 0 --END--", " 0.0>0[] 0.1>0[] 0.2>0[] 0.3>0[]"),
]
# labels over three propositions
GROUPS = [
    ("0 | 1 & 2] 0 --END--", " 0.1>0[] 0.3>0[] 0.5>0[] 0.6>0[] 0.7>0[]"),
    ("(0 | 1) & 2] 0 --END--", " 0.5>0[] 0.6>0[] 0.7>0[]"),
    ("0 & 1 | 2] 0 --END--", " 0.3>0[] 0.4>0[] 0.5>0[] 0.6>0[] 0.7>0[]"),
    ("0 & (1 | 2)] 0 --END--", " 0.3>0[] 0.5>0[] 0.7>0[]"),
    ("0 & !1 & 2] 0 --END--", " 0.5>0[]"),
    ("!0 & 1 | 0 & !1 & !2] 0 --END--", " 0.1>0[] 0.2>0[] 0.6>0[]"),
    ("!0 | !1 & !2] 0 --END--", " 0.0>0[] 0.1>0[] 0.2>0[] 0.4>0[] 0.6>0[]"),
    ("!(0 | !1) & !2] 0 --END--", " 0.2>0[]"),
    ("!(0 & 1) & !(1 & 2) & !(0 & 2) & !(!0 & !1 & !2)] 0 --END--", " 0.1>0[] 0.2>0[] 0.4>0[]"),
    ("0 & (1 | !(2 | f)) & t] 0 --END--", " 0.1>0[] 0.3>0[] 0.7>0[]"),
    ("f | 2 & f | t & 2 & 1] 0 --END--", " 0.6>0[] 0.7>0[]"),
]
# if the least set counts, edges agree that do not agree on the greatest
LEAST_SETS = [
    ("2 Inf(0) | Fin(1) --BODY-- State: 0 [t] 0 {0 1} [0] 0 {0} --END--", "1 states from 0, a, 2 sets, MinEven: 0.0>0[0, 1] 0.1>0[0, 1]"),
    ("2 Inf(0) | Fin(1) --BODY-- State: 0 [0] 0 {0} [t] 0 {0 1} --END--", "1 states from 0, a, 2 sets, MinEven: 0.0>0[0, 1] 0.1>0[0]"),
    ("2 Fin(0) & Inf(1) --BODY-- State: 0 [0] 0 {1 0} [t] 0 {0} --END--", "1 states from 0, a, 2 sets, MinOdd: 0.0>0[0] 0.1>0[0, 1]"),
    ("3 Fin(0) & (Inf(1) | Fin(2)) --BODY-- State: 0 [!0] 0 {1} [t] 0 {2 1} --END--", "1 states from 0, a, 3 sets, MinOdd: 0.0>0[1] 0.1>0[1, 2]"),
]

# each head, its line, and the texts that can follow it
HEADS = [
    ("HOA: v1 States: 2 Start: 0 Acceptance: 4 Fin(3) & (Inf(2) | Fin(1) & Inf(0)) --BODY-- ", "2 states from 0, 4 sets, MaxEven:", SETS),
    ('HOA: v1 States: 2 Start: 0 AP: 2 "a" "b" Acceptance: 2 Fin(1) & Inf(0) --BODY-- ', "2 states from 0, a, b, 2 sets, MaxEven:", LABELS),
    ('HOA: v1 Start: 0 AP: 3 "a" "b" "c" Acceptance: 0 t --BODY-- State: 0 [', "1 states from 0, a, b, c, 0 sets, Always:", GROUPS),
    ('HOA: v1 States: 1 Start: 0 AP: 1 "a" Acceptance: ', "", LEAST_SETS),
]

# conditions, by their shapes
CONDITIONS = {
    "Always": ["0 t", "0 ((t))"],
    "Never": ["0 f", "0 (f)"],
    "MaxEven": [
        "1 Inf(0)", "1 (((Inf(0))))", "2 Fin(1) & Inf(0)", "2 Inf(0) & Fin(1)", "2 ((Fin(1)) & (Inf(0)))", "3 Inf(2) | (Fin(1) & Inf(0))",
        "3 Inf(2) | Fin(1) & Inf(0)", "3 Inf(2) | (Inf(0) & Fin(1))", "3 (Fin(1) & Inf(0)) | Inf(2)", "3 Inf(0) & Fin(1) | Inf(2)",
        "3 (((Inf(0)) & Fin(1)) | (Inf(2)))", "4 Fin(3) & (Inf(2) | (Fin(1) & Inf(0)))", "4 (Inf(0) & Fin(1) | Inf(2)) & Fin(3)"],
    "MaxOdd": [
        "1 Fin(0)", "1 (Fin(0))", "2 Inf(1) | Fin(0)", "2 Fin(0) | Inf(1)", "2 (Inf(1) | (Fin(0)))", "3 Fin(2) & (Inf(1) | Fin(0))",
        "3 Fin(2) & (Fin(0) | Inf(1))", "3 (Inf(1) | Fin(0)) & Fin(2)", "3 (Fin(0) | Inf(1)) & Fin(2)", "3 ((Fin(2)) & ((Inf(1) | (Fin(0)))))",
        "4 Inf(3) | (Fin(2) & (Inf(1) | Fin(0)))", "4 Fin(2) & (Fin(0) | Inf(1)) | Inf(3)"],
    "MinEven": [
        "2 Inf(0) | Fin(1)", "2 Fin(1) | Inf(0)", "2 (Fin(1)) | Inf(0)", "3 Inf(0) | (Fin(1) & Inf(2))", "3 Inf(0) | Fin(1) & Inf(2)",
        "3 Inf(0) | (Inf(2) & Fin(1))", "3 (Fin(1) & Inf(2)) | Inf(0)", "3 Inf(2) & Fin(1) | Inf(0)", "4 Inf(0) | (Fin(1) & (Inf(2) | Fin(3)))",
        "4 (Fin(3) | Inf(2)) & Fin(1) | Inf(0)"],
    "MinOdd": [
        "2 Fin(0) & Inf(1)", "2 Inf(1) & Fin(0)", "2 (Inf(1) & (Fin(0)))", "3 Fin(0) & (Inf(1) | Fin(2))", "3 Fin(0) & (Fin(2) | Inf(1))",
        "3 (Inf(1) | Fin(2)) & Fin(0)", "3 (Fin(2) | Inf(1)) & Fin(0)", "3 (Fin(0) & (((Inf(1) | Fin(2)))))",
        "4 Fin(0) & (Inf(1) | (Fin(2) & Inf(3)))", "4 (Inf(3) & Fin(2) | Inf(1)) & Fin(0)"],
}

# as `autfilt` and Owl write them, and the standard's own example of a Rabin automaton, whose condition is of a parity shape
WRITTEN = [
    ("""HOA: v1
name: "FG(request -> Xgrant)"
States: 2
Start: 0
AP: 2 "request" "grant"
acc-name: parity max even 2
Acceptance: 2 Fin(1) & Inf(0)
properties: trans-labels explicit-labels trans-acc colored complete
properties: deterministic
controllable-AP: 1
--BODY--
State: 0
[!0] 0 {0}
[0] 1 {0}
State: 1
[!0&1] 0 {0}
[!0&!1] 0 {1}
[0&1] 1 {0}
[0&!1] 1 {1}
--END--
""", "2 states from 0, request, grant*, 2 sets, MaxEven: 0.0>0[0] 0.1>1[0] 0.2>0[0] 0.3>1[0] 1.0>0[1] 1.1>1[1] 1.2>0[0] 1.3>1[0]"),
    ("""HOA: v1
tool: "owl ltl2dpa" "21.0"
name: "Automaton for ((((G (F (request))) -> (G (F (grant))))) & (G (((!grant) | (!other)))))"
owlArgs: "ltl2dpa" "-f" "(GF request -> GF grant) & G !(grant & other)"
Start: 0
acc-name: parity min odd 3
Acceptance: 3 Fin(0) & (Inf(1) | Fin(2))
properties: trans-acc no-univ-branch
properties: deterministic unambiguous
properties: complete
AP: 3 "request" "grant" "other"
controllable-AP: 1 2
--BODY--
State: 0 "G (!grant | !other)"
[(1 & !2)] 0 {1}
[(0 & !1)] 0 {2}
[(!0 & !1)] 0
[(1 & 2)] 1 {0}
State: 1 "false"
[t] 1 {0}
--END--
""", "2 states from 0, request, grant*, other*, 3 sets, MinOdd: 0.0>0[] 0.1>0[2] 0.2>0[1] 0.3>0[1] 0.4>0[] 0.5>0[2] 0.6>1[0] 0.7>1[0] 1.0>1[0] "
     "1.1>1[0] 1.2>1[0] 1.3>1[0] 1.4>1[0] 1.5>1[0] 1.6>1[0] 1.7>1[0]"),
    ("""HOA: v1
States: 2
Start: 0
acc-name: Rabin 1
Acceptance: 2 (Fin(0) & Inf(1))
AP: 2 "a" "b"
--BODY--
State: 0 "a U b" {0}   /* An example of named state */
  [0 & !1] 0
  [1] 1
State: 1 {1}
  [t] 1
--END--
""", "2 states from 0, a, b, 2 sets, MinOdd: 0.1>0[0] 0.2>1[0] 0.3>1[0] 1.0>1[1] 1.1>1[1] 1.2>1[1] 1.3>1[1]"),
]

# labels over sixteen propositions, and the letters on which edges with them lead on, or don't; sixty-four letters in a row agree on those from 6 on
LETTERS = {
    "6": {63: False, 64: True, 127: True, 128: False},
    "7 & !6": {128: True, 192: False},
    "15": {32_767: False, 32_768: True},
    "14 & 5 & !0": {16_416: True, 16_417: False, 32: False},
    "0&1&2&3&4&5&6&7&8&9&10&11&12&13&14&15": {65_535: True, 65_534: False},
}

STEP = re.compile(r" (\d+)\.(\d+)>(\d+)\[([\d, ]*)\]")


def plain(told):
    """The plain text of the automaton that a line describes."""
    head, _, steps = told.rpartition(":")
    states, *names, sets, shape = head.split(", ")
    states, start = states.split(" states from ")
    sets, shape = int(sets.removesuffix(" sets")), re.sub("(?<=.)([A-Z])", r" \1", shape).lower()
    strings = ['"' + re.sub(r'(["\\])', r"\\\1", name.removesuffix("*")) + '"' for name in names]
    own = [str(a) for a, name in enumerate(names) if name.endswith("*")]
    lines = ["HOA: v1", f"States: {states}", f"Start: {start}", " ".join([f"AP: {len(names)}", *strings]),
             " ".join(["controllable-AP:", *own]), f"Acceptance: {sets} {controllers.condition(shape, sets)}", "--BODY--"]
    for state in range(int(states)):
        lines.append(f"State: {state}")
        for letter, target, met in (step for at, *step in STEP.findall(steps) if int(at) == state):
            label = "&".join(f"{'' if int(letter) >> a & 1 else '!'}{a}" for a in range(len(names))) or "t"
            lines.append(f"[{label}] {target} {{{met.replace(',', '')}}}")
    return "\n".join([*lines, "--END--", ""])


def with_steps(text, told):
    """The same automaton with steps, if it has none: the initial state leads to itself by each letter, and meets set 0 if there is one."""
    if not told.endswith(":") or not text.endswith("--BODY-- --END--"):
        return text, told
    start, names = re.search("from (\\d+)", told)[1], told.count(", ") - 2
    met = "0" if ", 0 sets" not in told else ""
    body = f"--BODY-- State: {start} [t] {start} {{{met}}} --END--"
    return text.removesuffix("--BODY-- --END--") + body, told + "".join(f" {start}.{it}>{start}[{met}]" for it in range(2 ** names))


def automata():
    """(text, the line of its automaton)."""
    yield from (with_steps(text, told) for text, told in WHOLE)
    for head, told, rows in HEADS:
        yield from ((head + text, told + steps) for text, steps in rows)
    for shape, conditions in CONDITIONS.items():
        for condition in conditions:
            # each letter meets another set, as far as there are enough sets
            sets = int(condition.split(" ")[0])
            edges = [f"[{label}] 0 {{{it if it < sets else ''}}}" for it, label in enumerate(["!0&!1", "0&!1", "!0&1", "0&1"])]
            yield (f'HOA: v1 Start: 0 AP: 2 "a" "b" Acceptance: {condition} --BODY-- State: 0 {" ".join(edges)} --END--',
                   f"1 states from 0, a, b, {sets} sets, {shape}:" + "".join(f" 0.{it}>0[{it if it < sets else ''}]" for it in range(4)))
    yield from WRITTEN


def answered(program, text, *words):
    ran = subprocess.run([program, *words], input=text if isinstance(text, bytes) else text.encode(), capture_output=True, timeout=60)
    return ran.returncode, ran.stdout


def of_automata(program):
    for text, told in automata():
        for command in ("game", "synth"):
            found = answered(program, text, command)
            yield f"{command}: {text}", found, (0, answered(program, plain(told), command)[1])


def of_letters(program):
    """Whether an edge with a label leads on by a letter: whether a circuit that always says that letter is accepted."""
    names = " ".join(f'"{it}"' for it in "abcdefghijklmnop")
    for label, letters in LETTERS.items():
        for letter, leads in letters.items():
            automaton = (f"HOA: v1 Acceptance: 0 t AP: 16 {names} controllable-AP: {' '.join(map(str, range(16)))} States: 256 Start: 255 "
                         f"--BODY-- State: 255 [{label}] 255 --END--\n")
            circuit = "aag 0 0 0 16 0\n" + "".join(f"{letter >> it & 1}\n" for it in range(16))
            status, said = answered(program, f"{automaton}--\n{circuit}", "verify", "--by-place")
            yield f"[{label}] by {letter}", (status, said.split(b"\n")[0]), (0, b"ACCEPTED" if leads else b"STUCK")


# ---- games

# texts of games as programs print them, and texts that differ from these, each with the printed layout
GAMES = {
    "leading zeros": (b'parity 07;007 0000 001 00000000000000000007;', b'parity 7;\n7 0 1 7;\n'),
    "tokens without white space between them": (b'parity4;start9;0 1 0 4,0,0"a b";4 0 1 0;', b'parity 4;\n0 1 0 0,4 "a b";\n4 0 1 0;\n'),
    "each byte that is white space": (b'\tparity\n0\x0b;\x0c\r 0\t1\n0\x0b0\x0c,\r0 "n"\x0c;\x0b', b'parity 0;\n0 1 0 0 "n";\n'),
    "as it was": (b'parity 2;\n0 0 1 0,1;\n1 1 1 1,2 "odd";\n2 65535 0 0,2 "";\n', b'parity 2;\n0 0 1 0,1;\n1 1 1 1,2 "odd";\n2 65535 0 0,2 "";\n'),
    "by rising identifier": (b'start 7;4000000000 2 0 7;\n7 1 1 4000000000,7,7;', b'parity 4000000000;\n7 1 1 7,4000000000;\n4000000000 2 0 7;\n'),
    "seven, eight and ten digits, and the greatest priority": (
        b'9999999 7 1 10000000,9999999,4294967295;\n10000000 0 0 9999999;\n4294967295 65535 1 4294967295;\n',
        b'parity 4294967295;\n9999999 7 1 9999999,10000000,4294967295;\n10000000 0 0 9999999;\n4294967295 65535 1 4294967295;\n'),
    "each digit in its place": (
        b'1234567 1234 0 7654321,1234567;\n7654321 4321 1 1234567,890;\n890 56 0 7654321;\n',
        b'parity 7654321;\n890 56 0 7654321;\n1234567 1234 0 1234567,7654321;\n7654321 4321 1 890,1234567;\n'),
    "more white space, and other": (
        b'1 10 0\t2,1;\r\n2 20 1  1 ,2;\r\n3 30 0 1, 2,\n3 ;\r\n\x0c4\t40 1 4 \n;\n\n5 50 0 5;\n \n',
        b'parity 5;\n1 10 0 1,2;\n2 20 1 1,2;\n3 30 0 1,2,3;\n4 40 1 4;\n5 50 0 5;\n'),
    "less of it": (b'1 2 0 1;2 3 1 1,2;3 4 0 3"c";4 5 1 4;', b'parity 4;\n1 2 0 1;\n2 3 1 1,2;\n3 4 0 3 "c";\n4 5 1 4;\n'),
    "names of any bytes but quotes": (
        b'1 10 0 2,1 "a;b,c 1";\n2 20 1 1 "";\n3 30 0 3 "\xff\x00\n" ;\n4 40 1 4 "x"\n;\n',
        b'parity 4;\n1 10 0 1,2 "a;b,c 1";\n2 20 1 1 "";\n3 30 0 3 "\xff\x00\n";\n4 40 1 4 "x";\n'),
    "repeated successors, and falling ones": (
        b'10 3 0 30,20,10,30;\n20 3 1 20,20,20;\n30 3 0 20,10;\n',
        b'parity 30;\n10 3 0 10,20,30;\n20 3 1 20;\n30 3 0 10,20;\n'),
    "leading zeros, up to seven digits and more": (
        b'0000001 00 01 0000001,00000002;\n00000002 002 00 0000000001,1;\n',
        b'parity 2;\n1 0 1 1,2;\n2 2 0 1;\n'),
    "a header and a start": (b'parity 12345678;\nstart 1;\n1 2 0 2,1;\n2 1 1 1;\n', b'parity 2;\n1 2 0 1,2;\n2 1 1 1;\n'),
    "no last newline": (b'1 2 0 1;\n2 1 1 1,2;', b'parity 2;\n1 2 0 1;\n2 1 1 1,2;\n'),
}

# solutions of `0 1 0 0,1; 1 2 1 0;` in several spellings
TWO = b"parity 1;\n0 1 0 0,1;\n1 2 1 0;\n--\n"
SOLUTIONS = [b"0 0 1;\n1 0;\n", b"1 0 0;\n0 0 01;", b"paritysol 9;\n0 0 1;1 0;", b"0 0 1;1 0 77;", b"1\x0a0;0\x0c0\x0b1\x09; \x0d"]


def of_games(program):
    for name, (text, layout) in GAMES.items():
        for command in ("measure", "solve"):
            status, said = answered(program, layout, command)
            yield f"{command}: {name}", answered(program, text, command), (0, said)
            yield f"{command}: {name}: the layout", status, 0


def of_solutions(program):
    for text in SOLUTIONS:
        yield f"{text}", answered(program, TWO + text, "check"), (0, b"WINS\n")


Tests = case.tests(__name__, of_automata, of_letters, of_games, of_solutions)
