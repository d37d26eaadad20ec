#!/usr/bin/env python3
"""Programs that pretend to be a worker: each is this file under the name of what it does, started as `NAME worker --port P`.
The variable PARSOLVE_PROGRAM names the program that is tested, PARSOLVE_FOLDER a folder for what they note, and PARSOLVE_SEED
the seed of the values that look random.
"""
import os
import random
import select
import signal
import socket
import struct
import subprocess
import sys
import time

HALT, SETUP, VERTICES, VALUES, GO, REPORT, SPARSE = 6, 1, 2, 3, 4, 5, 7
QUIET, REFUSAL, NO_MEMORY = b"\0\0\0\3\5\1\0", b"\0\0\0\3\5\2\x12", b"\0\0\0\3\5\2\1"


def connect(port):
    return socket.create_connection(("127.0.0.1", port))


def note(name, text=""):
    """Notes that something happened; answers whether this is the first time."""
    try:
        with open(os.path.join(os.environ["PARSOLVE_FOLDER"], name), "x") as file:
            file.write(text)
        return True
    except FileExistsError:
        return False


def become_worker(port):
    program = os.environ["PARSOLVE_PROGRAM"]
    os.execv(program, [program, "worker", "--port", str(port)])


def read_exactly(stream, count):
    data = b""
    while len(data) < count:
        more = stream.recv(min(count - len(data), 65536))
        if not more:
            sys.exit(0)
        data += more
    return data


def read_frame(stream):
    """The bytes of the next frame."""
    front = read_exactly(stream, 4)
    return front + read_exactly(stream, struct.unpack(">I", front)[0])


def frame(kind, body):
    return struct.pack(">IB", 1 + len(body), kind) + body


def values_frame(version, width, values):
    """A frame of values (vertex, list or None), of the version's kind."""
    kind, body = (SPARSE if version == 2 else VALUES), struct.pack(">II", width, len(values))
    for vertex, numbers in values:
        body += struct.pack(">IB", vertex, numbers is None)
        if numbers is None:
            continue
        if version == 2:
            pairs = [(place, number) for place, number in enumerate(numbers) if number]
            body += struct.pack(">I", len(pairs)) + b"".join(struct.pack(">II", *pair) for pair in pairs)
        else:
            body += struct.pack(f">{len(numbers)}I", *numbers)
    return frame(kind, body)


def vertices_in(body):
    """The vertices of a Vertices frame."""
    found, at = [], 4
    for _ in range(struct.unpack_from(">I", body)[0]):
        vertex, = struct.unpack_from(">I", body, at)
        found.append(vertex)
        at += 13 + 4 * struct.unpack_from(">I", body, at + 9)[0]
    return found


class Worker:
    """Follows the turns of the wire format, but answers a Go with `reply(self)`, the bytes before the report. It answers a
    set-up of version 2 with `first`."""

    def __init__(self, reply, first=QUIET, report=QUIET):
        self.reply, self.first, self.report = reply, first, report
        self.version, self.vertices, self.bounds, self.part, self.dice = 0, 0, [], [], None

    def serve(self, port):
        stream = connect(port)
        while True:
            whole = read_frame(stream)
            kind, body = whole[4], whole[5:]
            if kind == SETUP:
                self.version, self.vertices, count = struct.unpack_from(">BII", body)
                self.bounds = [struct.unpack_from(">II", body, 9 + 8 * place) for place in range(count)]
                self.part = []
                if self.version == 2:
                    stream.sendall(self.first)
            elif kind == VERTICES:
                self.part += vertices_in(body)
            elif kind == GO:
                stream.sendall(self.reply(self) + self.report)
            elif kind == HALT:
                return


def values_in(whole):
    """(width, the values) of a frame of values."""
    kind, (width, count) = whole[4], struct.unpack_from(">II", whole, 5)
    found, at = [], 13
    for _ in range(count):
        vertex, is_top = struct.unpack_from(">IB", whole, at)
        at, numbers = at + 5, [0] * width
        if is_top:
            numbers = None
        elif kind == VALUES:
            numbers, at = list(struct.unpack_from(f">{width}I", whole, at)), at + 4 * width
        else:
            pairs, = struct.unpack_from(">I", whole, at)
            for place, number in struct.iter_unpack(">II", whole[at + 4:at + 4 + 8 * pairs]):
                numbers[place] = number
            at += 4 + 8 * pairs
        found.append((vertex, numbers))
    return width, found


def top_everywhere(worker):
    return values_frame(worker.version, len(worker.bounds), [(vertex, None) for vertex in worker.part])


def top_somewhere(worker):
    """Top for a quarter of the part, always the same one."""
    return values_frame(worker.version, len(worker.bounds), [(vertex, None) for vertex in worker.part[::4]])


def random_values(worker):
    """Measures that fit, of some vertices of the part: the same for the same seed and first part."""
    dice = worker.dice = worker.dice or random.Random(f"{os.environ['PARSOLVE_SEED']} {worker.part}")
    some = [vertex for vertex in worker.part if dice.randint(0, 3) == 0]
    lists = [None if dice.randint(0, 9) == 0 else [dice.randint(0, most) for _, most in worker.bounds] for _ in some]
    return values_frame(worker.version, len(worker.bounds), list(zip(some, lists)))


def one_too_much(worker):
    """The list `1` for vertex 2, whatever the bounds are."""
    return values_frame(worker.version, 1, [(2, [1])])


def outside(worker):
    other = next((vertex for vertex in range(worker.vertices) if vertex not in worker.part), worker.vertices)
    return values_frame(worker.version, len(worker.bounds), [(other, None)])


def above_the_bounds(worker):
    return values_frame(worker.version, len(worker.bounds), [(worker.part[0], [most + 1 for _, most in worker.bounds])])


def send_first(port, data, then=None):
    """Reads one frame, answers with these bytes, and then does something, or reads on."""
    stream = connect(port)
    read_frame(stream)
    stream.sendall(data)
    if then is not None:
        return then(stream)
    while stream.recv(65536):
        pass


def keep_silent(stream=None):
    time.sleep(3600)


def drip(stream):
    while True:
        time.sleep(1)
        stream.sendall(b"\0")


def relay(port, seen, change=lambda whole: whole):
    """Stands between the port and the program itself. Passes on what `change` makes of each frame that the program sent, and then
    calls `seen` with it."""
    listener = socket.create_server(("127.0.0.1", 0))
    subprocess.Popen([os.environ["PARSOLVE_PROGRAM"], "worker", "--port", str(listener.getsockname()[1])])
    inner, _ = listener.accept()
    outer = connect(port)
    while True:
        ready, _, _ = select.select([outer, inner], [], [])
        if outer in ready:
            data = outer.recv(65536)
            if not data:
                sys.exit(0)
            inner.sendall(data)
        if inner in ready:
            whole = change(read_frame(inner))
            outer.sendall(whole)
            seen(whole)


def killed_after(port, count):
    """The first of these programs is killed after it has sent the given number of frames; the others do their work."""
    if not note("victim"):
        become_worker(port)
    passed = []

    def seen(whole):
        passed.append(whole)
        if len(passed) == count:
            note("killed")
            os.kill(os.getpid(), signal.SIGKILL)

    if count == 0:
        note("killed")
        os.kill(os.getpid(), signal.SIGKILL)
    relay(port, seen)


def zombies():
    """How many children of the starting program have ended and weren't waited for."""
    count = 0
    for name in filter(str.isdigit, os.listdir("/proc")):
        try:
            with open(f"/proc/{name}/stat") as file:
                state, parent = file.read().rpartition(")")[2].split()[:2]
        except OSError:
            continue
        count += state == "Z" and int(parent) == os.getppid()
    return count


def nonsense_once(port):
    """The first of these programs answers nonsense and stays connected; the second notes what was left of the first, and
    whether it does any work."""
    if note("first"):
        send_first(port, b"\0\0\0\0", lambda stream: keep_silent())
    if zombies():
        note("zombies")
    relay(port, lambda whole: whole[4] == SPARSE and note("worked"))


def silent_once(port):
    """The first of these programs answers its set-up and then nothing; the others do their work."""
    if not note("first"):
        become_worker(port)
    Worker(lambda worker: keep_silent()).serve(port)


def slow(port, seconds):
    """Does its work, and pauses for the given number of seconds after each turn."""
    relay(port, lambda whole: whole[4] == REPORT and time.sleep(seconds))


def raises_to_top(port):
    """Does its work, but says top in place of one in four of its values."""
    dice = random.Random(os.environ["PARSOLVE_SEED"])

    def raised(whole):
        if whole[4] not in (VALUES, SPARSE):
            return whole
        width, values = values_in(whole)
        told = [(vertex, None if dice.randint(0, 3) == 0 else numbers) for vertex, numbers in values]
        return values_frame(2 if whole[4] == SPARSE else 1, width, told)

    relay(port, lambda whole: None, raised)


def leaves_another(port):
    """Starts a program that keeps running, and does its work."""
    subprocess.Popen(["sleep", "3600"])
    become_worker(port)


def after_another(port):
    """Another program connects to the port before this one."""
    with connect(int(os.environ["PARSOLVE_OTHER"])) as other:
        other.sendall(b"%d\n" % port)
        other.recv(1)
    become_worker(port)


DOES = {
    "exits_at_once": lambda port: None,
    "never_connects": lambda port: keep_silent(),
    "connects_and_exits": lambda port: connect(port).close(),
    "connects_and_closes": lambda port: (connect(port).close(), time.sleep(3600)),
    "says_nothing": lambda port: (connect(port), keep_silent())[1],
    "half_a_frame_and_exits": lambda port: send_first(port, QUIET[:5], lambda stream: None),
    "half_a_frame_and_silence": lambda port: send_first(port, QUIET[:5], keep_silent),
    "half_a_length": lambda port: send_first(port, QUIET[:2], lambda stream: None),
    "drips": lambda port: send_first(port, b"\1\0\0\0\5", drip),
    "length_0": lambda port: send_first(port, b"\0\0\0\0"),
    "length_over_the_limit": lambda port: send_first(port, b"\1\0\0\1" + b"\0" * 100_000),
    "length_at_the_limit": lambda port: send_first(port, b"\1\0\0\0" + b"\0" * 100_000, lambda stream: None),
    "unknown_kind": lambda port: send_first(port, b"\0\0\0\1\x63"),
    "setup_in_reply": lambda port: Worker(lambda worker: frame(SETUP, struct.pack(">BII", 2, 1, 0))).serve(port),
    "outside_its_part": lambda port: Worker(outside).serve(port),
    "above_the_bounds": lambda port: Worker(above_the_bounds).serve(port),
    "another_width": lambda port: Worker(lambda worker: values_frame(worker.version, len(worker.bounds) + 1, [])).serve(port),
    "the_other_kind": lambda port: Worker(lambda worker: values_frame(3 - worker.version, len(worker.bounds), [])).serve(port),
    "too_many_frames": lambda port: Worker(lambda worker: values_frame(2, len(worker.bounds), []) * 65_537).serve(port),
    "refuses": lambda port: Worker(lambda worker: b"", NO_MEMORY).serve(port),
    "refuses_to_lift": lambda port: Worker(lambda worker: b"", QUIET, NO_MEMORY).serve(port),
    "quiet_at_once": lambda port: Worker(lambda worker: b"").serve(port),
    "top_everywhere": lambda port: Worker(top_everywhere).serve(port),
    "top_somewhere": lambda port: Worker(top_somewhere).serve(port),
    "top_in_version_1": lambda port: Worker(top_everywhere, REFUSAL).serve(port),
    "one_too_much": lambda port: Worker(one_too_much, REFUSAL).serve(port),
    "random_values": lambda port: Worker(random_values).serve(port),
    "nonsense_once": nonsense_once,
    "silent_once": silent_once,
    "slow": lambda port: slow(port, 5),
    "raises_to_top": raises_to_top,
    "leaves_another": leaves_another,
    "after_another": after_another,
    "starts_the_worker": lambda port: subprocess.run([os.environ["PARSOLVE_PROGRAM"], "worker", "--port", str(port)]),
}


def main():
    name, port = os.path.basename(sys.argv[0]), int(sys.argv[3])
    assert sys.argv[1:3] == ["worker", "--port"]
    if name.startswith("killed_after_"):
        killed_after(port, int(name.removeprefix("killed_after_")))
    else:
        DOES[name](port)


if __name__ == "__main__":
    try:
        main()
    except (BrokenPipeError, ConnectionResetError):
        pass
