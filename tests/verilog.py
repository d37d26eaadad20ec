"""Checks `tools/circuit verilog-in`: what it asks of yosys and makes of its answers, by a stand-in for yosys; and, if yosys is installed,
the circuits of small modules, and the way from a circuit to Verilog and back."""
import json
import os
import pathlib
import subprocess
import sys
import tempfile

import case
import simulating
from case import TOP

# prints WARNING, and copies the files that the two scripts write; it keeps the scripts
YOSYS = """#!/bin/sh
echo "$3" >> "$SCRIPTS"
[ -z "$WARNING" ] || echo "$WARNING" >&2
case $3 in *write_json*) cp "$DESIGN" design.json ;; *) cp "$CIRCUIT" circuit.aag ;; esac
"""
PORTS = {"clk": {"direction": "input", "bits": [2]}, "request": {"direction": "input", "bits": [3]}, "grant": {"direction": "output", "bits": [4]}}
REGISTER = {"type": "$_DFF_P_", "connections": {"C": [2], "D": [3], "Q": [4]}}
FALLING = {"type": "$_SDFFE_NP0P_", "connections": {"C": [2], "D": [3], "Q": [5], "E": [3], "R": [3]}}
NET = {"bits": [4], "attributes": {"init": "0"}}
TOLD = "circuit: module delay, clock clk: 1 inputs, 1 outputs, 1 latches, 0 gates\n"
GATES = "synth -flatten -auto-top; async2sync; write_json design.json; setundef -init -zero; write_rtlil design.il\n"
CIRCUIT = "read_rtlil design.il; rename -top circuit; cd circuit; {}cd ..; dffunmap; aigmap; write_aiger -zinit -ascii -symbols circuit.aag\n"


def design(ports=None, cells=(), nets=None):
    """What yosys writes about the module `delay`: with these ports, and these cells beside its register."""
    top = {"attributes": {"top": "1"}, "ports": {**PORTS, **(ports or {})}, "netnames": nets or {"grant": NET},
           "cells": {str(number): cell for number, cell in enumerate([REGISTER, *cells])}}
    return {"modules": {"delay": top, "other": {"attributes": {}, "ports": {}, "cells": {}, "netnames": {}}}}


def used(about, circuit=simulating.DELAY, words=(), warning=""):
    """(status, output, error stream, the scripts that yosys was asked to run) of the tool with the stand-in."""
    with tempfile.TemporaryDirectory() as made:
        folder = pathlib.Path(made)
        (folder / "bin").mkdir()
        (folder / "bin/yosys").write_text(YOSYS)
        (folder / "bin/yosys").chmod(0o755)
        for name, text in (("design", json.dumps(about)), ("circuit", circuit), ("scripts", "")):
            (folder / name).write_text(text)
        more = {"PATH": f"{folder}/bin:/usr/bin:/bin", "WARNING": warning, **{it.upper(): str(folder / it) for it in ("design", "circuit", "scripts")}}
        ran = subprocess.run([sys.executable, TOP / "tools/circuit", "verilog-in", "delay.v", *words], cwd=folder, capture_output=True, timeout=60,
                             env={**os.environ, **more})
        return ran.returncode, ran.stdout.decode(), ran.stderr.decode(), (folder / "scripts").read_text()


def by_stand_in():
    """(what is checked, result, wanted result) for designs that are read."""
    yield "a module", used(design()), (0, simulating.DELAY, TOLD, GATES + CIRCUIT.format("delete -port clk; "))
    yield "--top", used(design(), words=["--top", "delay"])[3].splitlines()[0], GATES.replace("-auto-top", "-top delay").strip()
    held = simulating.DELAY.replace("aag 2 1 1 1 0\n2\n4 2", "aag 1 0 1 1 0\n2 0").replace("\n4\ni0 request", "\n2")
    commands = "delete -port request; connect -set request 1'0; opt -full; delete -port clk; "
    yield "--hold", used(design(), held, ["--hold", "request=0"])[::3], (0, GATES + CIRCUIT.format(commands))
    yield ("what yosys warns of", used(design(), warning="Warning: no driver")[2], "circuit: yosys warns: no driver\n" * 2 + TOLD)
    yield ("no initial value", used(design(nets={"grant": {"bits": [4], "attributes": {}}}))[2],
           TOLD + "circuit: registers without an initial value, which begin at 0: 1\n")
    latch = {"type": "$_FF_", "connections": {"D": [3], "Q": [9]}}
    yield ("a latch", used(design(cells=[latch]))[2],
           TOLD + "circuit: latches that follow a level and not an edge, each of which becomes a register: 1\n")
    named = simulating.DELAY.replace("i0", "l0 !kept[1]\ni0")
    yield "names of registers", used(design(), named)[1].splitlines()[4:], ["l0 !kept[1]", "i0 request", "o0 grant"]
    odd = {"grant": NET, "kept": {"bits": [4], "upto": 1, "attributes": {}}}
    yield "bits counted up", used(design(nets=odd), named)[1], simulating.DELAY


def refused_by_stand_in():
    """The same for designs that are refused."""
    gated = {"type": "$_DFF_P_", "connections": {"C": [7], "D": [3], "Q": [5]}}
    gate = {"type": "$_AND_", "connections": {"A": [2], "B": [3], "Y": [6]}}
    inner = design()
    inner["modules"]["delay"]["cells"] = {"0": gated}
    names = "there are: clk, request"
    for what, about, words, told in (
            ("both edges", design(cells=[FALLING]), [], "its registers have several clocks: falling clk, rising clk; a circuit has one, and one edge of it"),
            ("two clocks", design(cells=[gated]), [], "its registers have several clocks: rising clk, rising inner signal; a circuit has one, and one edge "
                                                      "of it"),
            ("an inner clock", inner, [], "its clock isn't a port of the module, but made inside it"),
            ("a clock as a value", design(cells=[gate]), [], "the clock clk is also read as a value; a circuit has no clock"),
            ("a clock that goes out", design({"out": {"direction": "output", "bits": [2]}}), [], "the clock clk is also read as a value; a circuit has no "
                                                                                              "clock"),
            ("an inout", design({"pin": {"direction": "inout", "bits": [8]}}), [], "port pin is an inout; a circuit has inputs and outputs"),
            ("bits that begin at 1", design({"bus": {"direction": "input", "bits": [8, 9], "offset": 1}}), [],
             "the bits of port bus aren't counted down to 0, as in [3:0], and yosys would give them other numbers"),
            ("one input too few", design({"more": {"direction": "input", "bits": [8]}}), [], "its ports have 2 input bits, and yosys made 1 inputs"),
            ("no such port", design(), ["--hold", "reset=0"], f"'reset=0' isn't NAME=0 or NAME=1 for an input of one bit; {names}"),
            ("an output", design(), ["--hold", "grant=0"], f"'grant=0' isn't NAME=0 or NAME=1 for an input of one bit; {names}"),
            ("no bit", design(), ["--hold", "request"], f"'request' isn't NAME=0 or NAME=1 for an input of one bit; {names}"),
            ("a name of other marks", design(), ["--hold", "a b=0"], "port a b has a name of other marks than letters, digits, _ and $; rename it"),
            ("no module's name", design(), ["--top", "a b"], "'a b' isn't the name of a module")):
        yield what, used(about, words=words)[:3], (1, "", f"circuit: delay.v: {told}\n")
    with tempfile.TemporaryDirectory() as folder:
        ran = subprocess.run([sys.executable, TOP / "tools/circuit", "verilog-in", "delay.v"], capture_output=True, timeout=60,
                             env={**os.environ, "PATH": folder})
    yield "no yosys", (ran.returncode, ran.stderr), (1, b"circuit: delay.v: yosys isn't installed; in Debian it is in the package yosys\n")


MODULES = {  # (ports and body, the words of the tool, the circuit or the fault)
    "negated": ("(input clk, input x, output reg y); initial y = 1; always @(negedge clk) y <= x; endmodule", [],
                "aag 2 1 1 1 0\n2\n4 3\n5\ni0 x\nl0 !y\no0 y\n"),
    "no_clock": ("(input [1:0] x, output y); assign y = &x; endmodule", [], "aag 3 2 0 1 1\n2\n4\n6\n6 4 2\ni0 x[0]\ni1 x[1]\no0 y\n"),
    "at_rest": ("(input clk, input rst_n, input x, output reg y); always @(posedge clk or negedge rst_n) if (!rst_n) y <= 1; else y <= x; endmodule",
                ["--hold", "rst_n=1"], None),
    "two_clocks": ("(input a, input b, input x, output reg y, output reg z); always @(posedge a) y <= x; always @(posedge b) z <= x; endmodule", [],
                   "its registers have several clocks: rising a, rising b; a circuit has one, and one edge of it"),
    "gated": ("(input clk, input x, output reg y); wire g = clk & x; always @(posedge g) y <= x; endmodule", [],
              "its clock isn't a port of the module, but made inside it"),
    "read": ("(input clk, input x, output reg y, output z); assign z = clk & x; always @(posedge clk) y <= x; endmodule", [],
             "the clock clk is also read as a value; a circuit has no clock"),
    "upwards": ("(input [0:1] x, output y); assign y = x[0]; endmodule", [],
                "the bits of port x aren't counted down to 0, as in [3:0], and yosys would give them other numbers"),
}


def by_yosys():
    """The same for small modules that yosys reads."""
    for name, (text, words, wanted) in MODULES.items():
        if case.lacking("yosys"):
            yield name, case.lacking("yosys")
            continue
        with tempfile.TemporaryDirectory() as folder:
            pathlib.Path(folder, "all.v").write_text("".join(f"module {it}{body}\n" for it, (body, *_) in MODULES.items()))
            ran = subprocess.run([sys.executable, TOP / "tools/circuit", "verilog-in", "all.v", "--top", name, *words], cwd=folder, capture_output=True,
                                 text=True, timeout=60)
        if wanted is None:
            yield name, (ran.returncode, ran.stdout.splitlines()[0], ran.stdout.splitlines()[-3:]), (0, "aag 2 1 1 1 0", ["i0 x", "l0 y", "o0 y"])
        else:
            yield name, ran.stdout or ran.stderr, wanted if wanted.startswith("aag") else f"circuit: all.v: {wanted}\n"


def round_trip(program):
    """(what is checked, why it isn't so or None): a controller becomes Verilog and a circuit again, and every run of it satisfies the formula."""
    steps = ["{0} automaton --outs {1} {2} | {0} synth --small > answer", "{3} {4} ascii answer > controller.aag",
             "yosys -q -p 'read_aiger -wideports -clk_name clk -module_name again controller.aag; write_verilog -noattr again.v'",
             "{3} {4} verilog-in again.v > again.aag", "{0} verify --ltl {2} again.aag | grep -x ACCEPTED"]
    for name, outputs in (("handshake", "ack"), ("traffic-light", "main,side"), ("lift", "at_0,at_1,at_2,open")):
        with tempfile.TemporaryDirectory() as folder:
            words = [program, outputs, TOP / f"examples/{name}.ltl", sys.executable, TOP / "tools/circuit"]
            ran = case.lacking("yosys") or subprocess.run(["sh", "-ec", "\n".join(steps).format(*words)], cwd=folder, capture_output=True, text=True,
                                                          timeout=120)
        yield name, ran if isinstance(ran, case.LeftOut) else None if ran.returncode == 0 else f"{ran.stdout}{ran.stderr}"


Tests = case.tests(__name__, by_stand_in, refused_by_stand_in, by_yosys, round_trip)
