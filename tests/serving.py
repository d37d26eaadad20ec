"""Frames that are sent to a worker program over a connection, with the reply to them and how the program ends. All bytes were worked out by
hand, for the game `parity 1; 0 1 0 0; 1 3 0 0;` if no other is named."""
import socket
import struct
import subprocess

LIMIT = 60  # seconds

# the set-up of each version, the line of vertex 0, and the frame that ends a session
SETUP = "0000001a 01 01 00000002 00000002 00000003 00000001 00000001 00000001"
SETUP_2 = "0000001a 01 02 00000002 00000002 00000003 00000001 00000001 00000001"
LINES = "00000016 02 00000001 00000000 00000001 00 00000001 00000000"
HALT = "00000001 06"

# a set-up, a budget and the reply, with the lines of one vertex between the two frames
TURNS = [
    (SETUP, "00000005 04 00001000", "0000000e 03 00000002 00000001 00000000 01 00000003 05 01 00"),
    (SETUP, "00000005 04 00000002", "00000016 03 00000002 00000001 00000000 00 00000001 00000000 00000003 05 00 00"),
    (SETUP, "00000005 04 00000000", "00000003 05 00 00"),
    (SETUP_2, "00000005 04 00001000", "00000003 05 01 00 0000000e 07 00000002 00000001 00000000 01 00000003 05 01 00"),
    (SETUP_2, "00000005 04 00000002",
     "00000003 05 01 00 0000001a 07 00000002 00000001 00000000 00 00000001 00000000 00000001 00000003 05 00 00"),
]

# a frame without values, of either kind, and the report of a frame out of turn
NO_VALUES, NO_SPARSE, ORDER = "00000009 03 00000002 00000000", "00000009 07 00000002 00000000", "00000003 05 02 04"
OUT_OF_TURN = [
    ("00000005 04 00001000", HALT, HALT, ORDER),
    (LINES, HALT, HALT, ORDER),
    ("00000003 05 01 00", HALT, HALT, ORDER),
    (SETUP, NO_SPARSE, HALT, ORDER),
    (SETUP_2, NO_VALUES, HALT, "00000003 05 01 00" + ORDER),
    (SETUP, NO_VALUES, LINES, ORDER),
    (SETUP, LINES, LINES, ORDER),
    (SETUP, "00000003 05 01 00", HALT, ORDER),
]

# frames of values and of vertices that don't fit the set-up
MISFITS = [
    "00000016 03 00000002 00000001 00000000 00 00000000 00000002",
    "0000000e 03 00000002 00000001 00000002 01",
    "00000009 03 00000001 00000000",
    "00000016 02 00000001 00000002 00000001 00 00000001 00000000",
    "00000016 02 00000001 00000000 00000001 00 00000001 00000002",
    "00000016 02 00000001 00000000 00000005 00 00000001 00000000",
]

# bytes that are no frame, or end too early, and the report
NO_FRAMES = [
    ("01000001", "00000003 05 02 0c"),
    ("00000000", "00000003 05 02 0e"),
    ("0000", ""),
    ("00000001 08", "00000003 05 02 0e"),
    ("00000002 06 00", "00000003 05 02 0f"),
    ("0000000a 01 03 00000002 00000000", "00000003 05 02 12"),
]

QUIET = bytes.fromhex("00000003 05 01 00")


def exchange(program, sent):
    """The reply of a worker program to these bytes and no more, its status and its error stream."""
    with socket.create_server(("127.0.0.1", 0)) as server:
        server.settimeout(LIMIT)
        worker = subprocess.Popen([program, "worker", "--port", str(server.getsockname()[1])], stdin=subprocess.DEVNULL,
                                  stdout=subprocess.DEVNULL, stderr=subprocess.PIPE, text=True)
        try:
            stream, _ = server.accept()
            with stream:
                stream.settimeout(LIMIT)
                stream.sendall(sent)
                stream.shutdown(socket.SHUT_WR)
                reply = b"".join(iter(lambda: stream.recv(1 << 20), b""))
            return reply, worker.wait(LIMIT), worker.stderr.read()
        finally:
            worker.kill()
            worker.communicate()


def short_exchanges():
    """(what is sent, the reply, the number of the fault that the program reports, if any)."""
    for setup, go, reply in TURNS:
        yield [setup, LINES, go, HALT], reply, None
    for *frames, reply in OUT_OF_TURN:
        yield frames, reply, 4
    for frame in MISFITS:
        yield [SETUP, frame], "00000003 05 02 03", 3
    for sent, reply in NO_FRAMES:
        yield [sent], reply, 5
    yield [], "", None
    yield [SETUP], "", None


def frame(kind, body):
    return struct.pack(">IB", 1 + len(body), kind) + body


def lines(first, end, priority, successor):
    """Lines of Even's vertices, each of which has this one successor."""
    return frame(2, struct.pack(">I", end - first) + b"".join(struct.pack(">IIBII", v, priority, 0, 1, successor) for v in range(first, end)))


def wide_set_up(vertices, bounds):
    """The set-up of version 1, whose bounds are one for each odd priority below twice `bounds`."""
    pairs = b"".join(struct.pack(">II", 2 * half + 1, 1) for half in reversed(range(bounds)))
    return frame(1, struct.pack(">BII", 1, vertices, bounds) + pairs)


def lifted_once(first, end, width):
    """The frame of lists that are zeros but for a 1 at their end."""
    value = bytes(4 * (width - 1)) + struct.pack(">I", 1)
    return frame(3, struct.pack(">II", width, end - first) + b"".join(struct.pack(">IB", v, 0) + value for v in range(first, end)))


def long_exchanges():
    """(what is sent, the reply): many lines in a frame or two, and a reply of which 127 lists of 131,077 bytes fit in a frame."""
    go = frame(4, struct.pack(">I", 4096))
    for parts in ([(0, 65_536)], [(0, 40_000), (40_000, 65_536)]):
        yield wide_set_up(65_537, 0) + b"".join(lines(*part, 0, 65_536) for part in parts) + go, QUIET
    yield wide_set_up(129, 32_768) + lines(0, 128, 1, 128) + go, lifted_once(0, 127, 32_768) + lifted_once(127, 128, 32_768) + QUIET


def check(program):
    """Why a worker program doesn't reply or end as it must, or None."""
    short = ((bytes.fromhex("".join(parts)), bytes.fromhex(reply), fault) for parts, reply, fault in short_exchanges())
    for sent, reply, fault in [*short, *((sent, reply, None) for sent, reply in long_exchanges())]:
        wanted = (reply, 0, "") if fault is None else (reply, 1, f"parsolve: worker fault {fault}\n")
        found = exchange(program, sent)
        if found != wanted:
            return f"{sent[:100].hex()}..: {found[0][:100].hex()}.. of {len(found[0])} bytes, {found[1:]}, wanted {wanted[0][:100].hex()}.. of " \
                f"{len(reply)} bytes, {wanted[1:]}"
    return None
