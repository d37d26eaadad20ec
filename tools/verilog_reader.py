"""Verilog designs as circuits: yosys makes gates and registers of a design, and a look at these finds its clock."""
import json
import os
import pathlib
import re
import shutil
import tempfile

from aiger import read_circuit
from texts import Fault, printed_by

LONGEST_WAIT, MOST_SHOWN = 600, 4
GATES = "synth -flatten {top}; async2sync; write_json design.json; setundef -init -zero; write_rtlil design.il"
CIRCUIT = "read_rtlil design.il; rename -top circuit; cd circuit; {changes}cd ..; dffunmap; aigmap; write_aiger -zinit -ascii -symbols circuit.aag"
REGISTER = re.compile(r"\$_S?DFF(?:E|CE)?_([NP])")  # with the edge of its clock
NAME = re.compile(r"[A-Za-z_][\w$]*", re.ASCII)


def asked(script, paths, folder):
    """Runs a script of yosys in a folder, on files that it reads first; answers what it warns of. The last line of a fault is yosys's own."""
    warnings = []
    printed_by(["yosys", "-q", "-p", script, *paths], b"", LONGEST_WAIT, folder, warnings)
    return [line.replace("Warning: ", "yosys warns: ", 1) for line in warnings if line.startswith("Warning: ")]


def only_module(text):
    """The name of the design's one module, and its ports, cells and nets as yosys describes them."""
    [(name, module)] = ((name, it) for name, it in json.loads(text)["modules"].items() if int(it["attributes"].get("top", "0"), 2))
    for port, about in module["ports"].items():
        if about["direction"] == "inout":
            raise Fault(f"port {port} is an inout; a circuit has inputs and outputs")
        if about.get("offset") or about.get("upto"):
            raise Fault(f"the bits of port {port} aren't counted down to 0, as in [3:0], and yosys would give them other numbers")
    return name, module


def clock_of(module):
    """The name of the port that is the clock of all registers, or None if there is no register."""
    edges = {(cell["connections"]["C"][0], found[1]) for cell in module["cells"].values() if (found := REGISTER.match(cell["type"]))}
    ports = {it["bits"][0]: name for name, it in module["ports"].items() if it["direction"] == "input" and len(it["bits"]) == 1}
    if not edges:
        return None
    if len(edges) > 1:
        names = sorted({f"{'rising' if edge == 'P' else 'falling'} {ports.get(bit, 'inner signal')}" for bit, edge in edges})
        raise Fault(f"its registers have several clocks: {', '.join(names)}; a circuit has one, and one edge of it")
    [(bit, _)] = edges
    if bit not in ports:
        raise Fault("its clock isn't a port of the module, but made inside it")
    read = [connected for cell in module["cells"].values() for place, connected in cell["connections"].items()
            if place != "C" or not REGISTER.match(cell["type"])]
    read += [it["bits"] for name, it in module["ports"].items() if name != ports[bit]]
    if any(bit in it for it in read):
        raise Fault(f"the clock {ports[bit]} is also read as a value; a circuit has no clock")
    return ports[bit]


def without_start(module):
    """How many registers have no initial value."""
    starts = {bit: start for net in module["netnames"].values() for bit, start in zip(net["bits"], reversed(net["attributes"].get("init", "")))}
    outputs = [cell["connections"]["Q"][0] for cell in module["cells"].values() if REGISTER.match(cell["type"])]
    return sum(starts.get(it, "x") not in "01" for it in outputs)


def held_ports(module, held):
    """The commands that hold input ports at a bit."""
    for text in held:
        name, _, bit = text.partition("=")
        port = module["ports"].get(name, {})
        if port.get("direction") != "input" or len(port["bits"]) != 1 or bit not in ("0", "1"):
            ports = [it for it, port in module["ports"].items() if port["direction"] == "input" and len(port["bits"]) == 1]
            raise Fault(f"{text!r} isn't NAME=0 or NAME=1 for an input of one bit; there are: {', '.join(ports) or 'none'}")
        yield f"delete -port {name}; connect -set {name} 1'{bit}; "


def changes(module, clock, held):
    """The commands that hold ports, and then leave out the clock: `opt` would take a register without a clock for a constant."""
    names = [clock] * (clock is not None) + [it.partition("=")[0] for it in held]
    odd = next((it for it in names if not NAME.fullmatch(it)), None)
    if odd:
        raise Fault(f"port {odd} has a name of other marks than letters, digits, _ and $; rename it")
    made = "".join(held_ports(module, held))
    return made + ("opt -full; " if made else "") + (f"delete -port {clock}; " if clock else "")


def named(circuit, module, left_out):
    """The circuit, if its inputs are those of the ports; registers whose bits yosys numbers in its own way lose their names."""
    wanted = sum(len(it["bits"]) for name, it in module["ports"].items() if it["direction"] == "input" and name not in left_out)
    if wanted != len(circuit.inputs):
        raise Fault(f"its ports have {wanted} input bits, and yosys made {len(circuit.inputs)} inputs")
    odd = {name for name, it in module["netnames"].items() if it.get("offset") or it.get("upto")}
    return circuit._replace(names={place: name for place, name in circuit.names.items()
                                   if place[0] != "l" or name.lstrip("!").rpartition("[")[0] not in odd})


def read_verilog(paths, top, held):
    """The circuit of a design in these files, and lines about it."""
    if shutil.which("yosys") is None:
        raise Fault("yosys isn't installed; in Debian it is in the package yosys")
    if top and not NAME.fullmatch(top):
        raise Fault(f"{top!r} isn't the name of a module")
    with tempfile.TemporaryDirectory() as made:
        folder = pathlib.Path(made)
        told = asked(GATES.format(top=f"-top {top}" if top else "-auto-top"), map(os.path.abspath, paths), folder)
        name, module = only_module((folder / "design.json").read_text())
        clock = clock_of(module)
        told += asked(CIRCUIT.format(changes=changes(module, clock, held)), [], folder)
        circuit = named(read_circuit((folder / "circuit.aag").read_bytes()), module, [clock, *(it.partition("=")[0] for it in held)])
    told.append(f"module {name}, {f'clock {clock}' if clock else 'no clock'}: {len(circuit.inputs)} inputs, {len(circuit.outputs)} outputs, "
                f"{len(circuit.latches)} latches, {len(circuit.gates)} gates")
    counts = {"registers without an initial value, which begin at 0": without_start(module),
              "latches that follow a level and not an edge, each of which becomes a register": sum(it["type"] == "$_FF_" for it in module["cells"].values())}
    return circuit, told + [f"{what}: {count}" for what, count in counts.items() if count]
