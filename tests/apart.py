"""Runs commands whose workers are programs of their own: the program itself, programs that pretend to be a worker
(pretender.py), programs that don't exist. Each run must end with the right answer, in time, and by then each program that it started
must have ended; so must a worker whose solver was killed. Without the tables in /proc no worker is heard, and some checks fail."""
import ast
import ctypes
import encodings.idna  # noqa: F401: a process that connects as another user might no longer be able to read it
import fcntl
import os
import pathlib
import random
import resource
import select
import shutil
import signal
import socket
import struct
import subprocess
import sys
import tempfile
import threading
import time

import case
import closed
import naive
import pretender

PRETENDER = pathlib.Path(__file__).resolve().parent / "pretender.py"
FAMILIES = pathlib.Path(__file__).resolve().parent.parent / "bench/families.py"
LIMIT = 90  # seconds after which a run counts as hanging: a command gives its programs sixty in all

TWO = "parity 1;\n0 1 0 0,1;\n1 2 1 0;\n"
TOPS = "parity 1;\n0 1 0 0;\n1 3 0 0;\n"
THREE = 'parity 2;\n0 0 1 0,1;\n1 1 1 1,2 "odd";\n2 2 0 0,2;\n'
DELAY = """HOA: v1\nname: "delay"\nStates: 2\nStart: 0\nAP: 2 "r" "g"\ncontrollable-AP: 1\nacc-name: parity max even 2
Acceptance: 2 Fin(1) & Inf(0)\nproperties: trans-labels explicit-labels trans-acc deterministic\n--BODY--\nState: 0 "low"
[!0&!1] 0 {0}\n[0&!1] 1 {0}\nState: 1\n[!0&1] 0 {0}\n[0&1] 1 {0}\n--END--\n"""
ANSWERS = {
    ("measure", TWO): "0 1;\n1 0;\n",
    ("measure", TOPS): "0 T;\n1 T;\n",
    ("measure", THREE): "0 T;\n1 T;\n2 0;\n",
    ("solve", TWO): "paritysol 1;\n0 0 1;\n1 0;\n",
    ("solve", THREE): "paritysol 2;\n0 1 1;\n1 1 1;\n2 0 2;\n",
    ("synth", DELAY): "REALIZABLE\naag 8 1 1 1 6\n2\n4 15\n17\n6 5 3\n8 5 2\n10 4 3\n12 4 2\n14 13 9\n16 13 11\ni0 r\no0 g\n",
}

FAILING = ["exits_at_once", "connects_and_exits", "half_a_frame_and_exits", "half_a_length", "length_0", "length_over_the_limit",
           "length_at_the_limit", "unknown_kind", "setup_in_reply", "outside_its_part", "above_the_bounds", "another_width",
           "the_other_kind", "too_many_frames", "refuses", "refuses_to_lift", "quiet_at_once"]
WAITING = ["never_connects", "connects_and_closes", "says_nothing", "half_a_frame_and_silence", "drips"]
STARTING = ("killed_after", "nonsense_once", "raises_to_top", "slow", "starts_the_worker",
            "far-worker")  # these start a program in turn, which ends a little later


def begin():
    """Makes this process the parent of programs whose own parent has ended."""
    ctypes.CDLL(None).prctl(36, 1, 0, 0, 0)


def left_behind(grace):
    """How many programs were left running, or not waited for; it waits for them, and kills them after `grace` seconds."""
    count, until = 0, time.monotonic() + grace
    while True:
        try:
            found, _ = os.waitpid(-1, os.WNOHANG)
        except ChildProcessError:
            return count
        if found:
            count += grace == 0
        elif time.monotonic() >= until:
            for child in children_of(os.getpid()):
                os.kill(int(child), 9)
                os.waitpid(int(child), 0)
                count += 1
        else:
            time.sleep(0.01)


class Run:
    """A run of a program; `path` names the worker to start: the name of a pretender, or a path."""

    def __init__(self, program, command, text, path, workers=1):
        self.program, self.command, self.text, self.path, self.workers = program, command, text, path, workers

    def __str__(self):
        return f"{self.command} --workers {self.workers} --apart {self.path} ({os.path.basename(self.program)})"

    def make(self, folder, **more):
        """Runs it, keeps its answer, and says why it didn't end as it should, or None."""
        path = self.path
        if path and "/" not in path:
            path = os.path.join(folder, path)
            os.symlink(PRETENDER, path)
        env = {**os.environ, "PARSOLVE_PROGRAM": self.program, "PARSOLVE_FOLDER": folder, **more}
        words = [self.program, self.command, "--workers", str(self.workers), "--apart", path]
        ran = subprocess.Popen(words, stdin=subprocess.PIPE, stdout=subprocess.PIPE, stderr=subprocess.PIPE, text=True, env=env)
        try:
            self.output, self.errors = ran.communicate(self.text, timeout=LIMIT)
        except subprocess.TimeoutExpired:
            ran.kill()
            self.output, self.errors = ran.communicate()
            return "it hangs"
        self.status = ran.returncode
        left = left_behind(10 if os.path.basename(self.path).startswith(STARTING) else 0)
        return f"{left} programs were left behind" if left else None

    def differs(self, status, output, errors=""):
        """Why the answer isn't this one, or None."""
        found, wanted = (self.status, self.output, self.errors), (status, output, errors)
        return None if found == wanted else f"{found!r}, wanted {wanted!r}"

    def answers(self, output):
        with tempfile.TemporaryDirectory() as folder:
            return self.make(folder) or self.differs(0, output)


def answers(program, command, text, path, workers=1, within=LIMIT):
    """The right answer comes within the given seconds."""
    run, start = Run(program, command, text, path, workers), time.monotonic()
    why, took = run.answers(ANSWERS[command, text]), time.monotonic() - start
    return str(run), why or (f"took {took:.0f} seconds" if took > within else None)


def says(program, command, text, path, status, output, errors=""):
    """The worker programs' values are believed as far as they go."""
    run = Run(program, command, text, path)
    with tempfile.TemporaryDirectory() as folder:
        return str(run), run.make(folder) or run.differs(status, output, errors)


def to_and_fro(count):
    """A game, and its measures. Each vertex but the last has the next as its successor, which is in the part of the other of two
    programs: in a round each measure rises by one, up to the number of vertices after it."""
    order = [v // 2 + v % 2 * (count // 2) for v in range(count)]
    lines = [f"{v} 1 0 {w};\n" for v, w in zip(order, order[1:])] + [f"{order[-1]} 2 0 {order[-1]};\n"]
    behind = {v: count - 1 - place for place, v in enumerate(order)}
    text = "".join(sorted(lines, key=lambda line: int(line.split()[0])))
    return text, "".join(f"{v} {behind[v]};\n" for v in range(count))


def ends_where_values_go_to_and_fro(program, path, count=400):
    """The solver gives the programs up before all measures have risen, because of the number of rounds or the time that they take, and
    the answer is the same."""
    text, measures = to_and_fro(count)
    run = Run(program, "measure", text, path, 2)
    return f"{run}, to and fro", run.answers(measures)


def leaves_what_programs_start(program):
    """Each program that the command starts has ended when the command ends, and programs that it started in turn are left alone."""
    run = Run(program, "measure", TWO, "leaves_another")
    with tempfile.TemporaryDirectory() as folder:
        why = run.make(folder)
        return str(run), run.differs(0, ANSWERS["measure", TWO]) if why == "1 programs were left behind" else why or "none was left"


def children_of(number):
    """The programs that a process started and that haven't ended."""
    with open(f"/proc/{number}/task/{number}/children") as file:
        return file.read().split()


def workers_end_when_the_command_is_killed(program, count=800_000):
    """Worker programs whose solver is killed in the middle of its rounds end by themselves."""
    words = [program, "measure", "--workers", "4", "--apart", program]
    ran = subprocess.Popen(words, stdin=subprocess.PIPE, stdout=subprocess.DEVNULL, text=True)
    ran.stdin.write(to_and_fro(count)[0])
    ran.stdin.close()
    while ran.poll() is None and len(children_of(ran.pid)) < 4:
        time.sleep(0.001)
    time.sleep(0.2)
    ran.kill()
    ended, left = ran.wait(), left_behind(10)
    why = f"it ended before it was killed: {ended}" if ended != -9 else f"{left} programs were left behind" if left else None
    return f"measure --workers 4 --apart {program}, which is killed", why


def wins_or_is_undecided(program, text, seed, lie="random_values"):
    """Whatever measures the programs make up, a solution that is printed is sound."""
    run = Run(program, "solve", text, lie, 2)
    name = f"{run}, seed {seed} on {text[:200]!r}"
    with tempfile.TemporaryDirectory() as folder:
        why = run.make(folder, PARSOLVE_SEED=str(seed))
    if why is not None or run.status == 3 and not run.output and run.errors.startswith("parsolve: undecided at "):
        return name, why
    checked = subprocess.run([program, "check"], input=f"{text}--\n{run.output}", capture_output=True, text=True)
    return name, None if checked.stdout == "WINS\n" else f"{run.output!r}: {checked.stdout!r}"


def lies_are_harmless(program, command, seed):
    """Workers that say top for some of their vertices: the answer for a random game follows closed maps all the same."""
    dice = random.Random(seed)
    game = {v: (dice.randint(0, 5), dice.randint(0, 1), dice.sample(range(12), 2)) for v in range(12)}
    text = naive.game_text(game)
    if command == "solve":
        return wins_or_is_undecided(program, text, seed, "raises_to_top")
    run = Run(program, command, text, "raises_to_top", 2)
    with tempfile.TemporaryDirectory() as folder:
        why = run.make(folder, PARSOLVE_SEED=str(seed))
    if why is None:
        why = f"status {run.status}" if run.status else closed.why_open(game, run.output)
    return f"{run}, seed {seed} on {text!r}", why


def lies_slow_nothing(program):
    """A game whose measures climb far is solved in time, though workers say top for some of its vertices."""
    text = subprocess.run([sys.executable, FAMILIES, "hard", "5000", "0"], capture_output=True, text=True, check=True).stdout
    return wins_or_is_undecided(program, text, 1, "top_somewhere")


def killed_at_each_frame(program, command, text):
    """One of two programs is killed after its N-th frame, for rising N until it sends fewer."""
    for count in range(1000):
        run = Run(program, command, text, f"killed_after_{count}", 2)
        with tempfile.TemporaryDirectory() as folder:
            why = run.make(folder) or run.differs(0, ANSWERS[command, text])
            if why is not None:
                return str(run), why
            if not os.path.exists(os.path.join(folder, "killed")):
                return str(run), None if count > 2 else f"only {count} frames came"
    return str(run), "there is no last frame"


def starts_anew(program):
    """A program that answers nonsense is killed and waited for, and another one does the work over a connection of its own."""
    run = Run(program, "measure", TOPS, "nonsense_once")
    with tempfile.TemporaryDirectory() as folder:
        why = run.make(folder) or run.differs(0, ANSWERS["measure", TOPS])
        notes = set(os.listdir(folder))
        if why is None and ("zombies" in notes or "worked" not in notes):
            why = f"notes: {sorted(notes)}"
    return str(run), why


def answer_for_another(listener):
    """Connects to the port that a program names, before that program does, and says top for each vertex there."""
    told, _ = listener.accept()
    port = int(told.makefile().readline())
    worker = pretender.Worker(pretender.top_everywhere)
    thread = threading.Thread(target=worker.serve, args=[port], daemon=True)
    thread.start()
    time.sleep(0.2)
    told.sendall(b"\n")


def others_stay_out(program):
    """A connection of another program, which is there first, isn't taken for that of the program that was started."""
    run = Run(program, "measure", TWO, "after_another")
    with socket.create_server(("127.0.0.1", 0)) as listener, tempfile.TemporaryDirectory() as folder:
        threading.Thread(target=answer_for_another, args=[listener], daemon=True).start()
        why = run.make(folder, PARSOLVE_OTHER=str(listener.getsockname()[1]))
        return str(run), why or run.differs(0, ANSWERS["measure", TWO])


USERS, OWN, STRANGER = 65536, 1, 2  # how many users a namespace has, and two of them
CLONE_NEWNS, CLONE_NEWUSER, CLONE_NEWNET = 0x20000, 0x10000000, 0x40000000
SIOCSIFFLAGS, IFF_UP = 0x8914, 1


def enter_namespace(ready, mapped):
    """Makes this process root in its own namespaces of users, mounts and network, with a loopback; its parent says when its users are mapped."""
    if ctypes.CDLL(None).unshare(CLONE_NEWUSER | CLONE_NEWNS | CLONE_NEWNET) != 0:
        os._exit(1)
    os.write(ready, b"u")
    if os.read(mapped, 1) != b"m":
        os._exit(1)
    os.setgid(0)
    os.setuid(0)
    with socket.socket() as any_socket:
        fcntl.ioctl(any_socket, SIOCSIFFLAGS, struct.pack("16sH22x", b"lo", IFF_UP))


def map_users(child, count):
    """Maps the given number of users of this namespace, from the process's own user on, into the namespace of a child."""
    own = (os.getuid(), os.getgid())
    if own[0] != 0:
        with open(f"/proc/{child}/setgroups", "w") as file:
            file.write("deny")
    for name, first in zip(("uid_map", "gid_map"), own):
        with open(f"/proc/{child}/{name}", "w") as file:
            file.write(f"0 {first} {count}")


def in_namespace(count, call, *rest):
    """The answer, a text or None, of a call made as root of a namespace of `count` users; left out if there can't be one."""
    ready, mapped, answer = os.pipe(), os.pipe(), os.pipe()
    child = os.fork()
    if child == 0:
        try:
            for end in (ready[0], mapped[1], answer[0]):
                os.close(end)
            enter_namespace(ready[1], mapped[0])
            why = call(*rest)
            os.write(answer[1], repr(why).encode())
        except case.LeftOut:
            pass
        except Exception as why:
            os.write(answer[1], repr(repr(why)).encode())
        finally:
            os._exit(0)
    for end in (ready[1], mapped[0], answer[1]):
        os.close(end)
    try:
        can = os.read(ready[0], 1) == b"u"
        if can:
            map_users(child, count)
            os.write(mapped[1], b"m")
    except OSError:
        can = False
    finally:
        os.close(mapped[1])
    with open(answer[0]) as file:
        text = file.read()
    os.close(ready[0])
    os.waitpid(child, 0)
    if not can or not text:
        raise case.LeftOut("no namespace of users, mounts and a loopback can be made")
    return ast.literal_eval(text)


def copied(source, folder, name, mode):
    """A copy of a file, with this mode."""
    path = os.path.join(folder, name)
    shutil.copyfile(source, path)
    os.chmod(path, mode)
    return path


def wait_for(path):
    while not os.path.exists(path):
        time.sleep(0.01)


WAITS = 'echo "$2" > noted; mv noted port; while [ ! -e connected ]; do sleep 0.05; done; exec ./unreadable worker --port "$2"\n'


def top_for_another(folder):
    """As a separate user, connects to the port that the worker noted, and says top for each vertex there."""
    os.setgid(STRANGER)
    os.setuid(STRANGER)
    wait_for(os.path.join(folder, "port"))
    stream = pretender.connect(int(pathlib.Path(folder, "port").read_text()))
    pathlib.Path(folder, "connected").touch()
    pretender.connect = lambda port: stream
    pretender.Worker(pretender.top_everywhere).serve(0)


def measured_beside_a_stranger(program):
    """Why the measures aren't those of TWO, or weren't found by the worker, whose file can't be read and which waits for the stranger."""
    with tempfile.TemporaryDirectory() as folder:
        os.chmod(folder, 0o777)
        own = copied(program, folder, "parsolve", 0o755)
        copied(program, folder, "unreadable", 0o711)
        copied("/bin/sh", folder, "shell", 0o711)
        pathlib.Path(folder, "worker").write_text(WAITS)
        stranger = os.fork()
        if stranger == 0:
            try:
                top_for_another(folder)
            finally:
                os._exit(0)
        start = time.monotonic()
        ran = subprocess.run([own, "measure", "--workers", "1", "--apart", "./shell"], cwd=folder, input=TWO, capture_output=True,
                             text=True, timeout=LIMIT, user=OWN, group=OWN, extra_groups=[])
        took, found = time.monotonic() - start, (ran.returncode, ran.stdout, ran.stderr)
        os.kill(stranger, signal.SIGKILL)
        os.waitpid(stranger, 0)
        if found != (0, ANSWERS["measure", TWO], ""):
            return f"{found!r}"
        if not os.path.exists(os.path.join(folder, "connected")):
            return "no stranger was there"
        return f"took {took:.0f} seconds: the worker wasn't heard" if took > 8 else None


def other_users_stay_out(program):
    """A connection of another user, which is there first, isn't taken, though nobody can tell what the worker holds: its file can be
    executed but not read. The worker's connection, which has the solver's own user, is taken."""
    name = f"measure --workers 1 --apart a file that can't be read ({os.path.basename(program)}), another user connects"
    if os.getuid() != 0:
        raise case.LeftOut("only root can connect as another user")
    return name, in_namespace(USERS, measured_beside_a_stranger, program)


def measured_without_tables(program):
    """Why the measures aren't those of TWO if there is no /proc; the worker says top."""
    if ctypes.CDLL(None).mount(b"none", b"/proc", b"tmpfs", 0, None) != 0:
        raise case.LeftOut
    run = Run(program, "measure", TWO, "top_everywhere")
    with tempfile.TemporaryDirectory() as folder:
        return run.make(folder) or run.differs(0, ANSWERS["measure", TWO])


def takes_nobody_without_tables(program):
    """If the tables of the system can't be read, no connection is taken, and the game is solved in one piece."""
    name = f"measure --workers 1 --apart top_everywhere ({os.path.basename(program)}), without /proc"
    return name, in_namespace(1, measured_without_tables, program)


def starts_none_as_its_owner(program):
    """A file that would be started as its owner isn't started."""
    run = Run(program, "measure", TWO, "./shell")
    with tempfile.TemporaryDirectory() as folder:
        copied("/bin/sh", folder, "shell", 0o4755)
        pathlib.Path(folder, "worker").write_text(": > started\n")
        ran = subprocess.run([program, "measure", "--workers", "1", "--apart", "./shell"], cwd=folder, input=TWO, capture_output=True,
                             text=True, timeout=LIMIT)
        run.status, run.output, run.errors = ran.returncode, ran.stdout, ran.stderr
        why = "it was started" if os.path.exists(os.path.join(folder, "started")) else None
        return f"{run}, a setuid file", why or run.differs(0, ANSWERS["measure", TWO])


def starts_programs_for_what_they_keep(program, count, is_wanted):
    """A path of `count` vertices, each with a priority of its own: a worker keeps a map of up to 67,108,864 numbers, vertices times odd
    priorities. If it would have to keep more, no program is started. The answer is the same."""
    text = "".join(f"{v} {v} 1 {min(v + 1, count - 1)};\n" for v in range(count))
    won = "".join(f"{v} 1 {min(v + 1, count - 1)};\n" for v in range(count))
    run = Run(program, "solve", text, "./shell")
    with tempfile.TemporaryDirectory() as folder:
        copied("/bin/sh", folder, "shell", 0o755)
        pathlib.Path(folder, "worker").write_text(": > started\n")
        ran = subprocess.run([program, "solve", "--workers", "1", "--apart", "./shell"], cwd=folder, input=text, capture_output=True,
                             text=True, timeout=LIMIT)
        run.status, run.output, run.errors = ran.returncode, ran.stdout, ran.stderr
        is_started = os.path.exists(os.path.join(folder, "started"))
        why = None if is_started == is_wanted else f"a program was started: {is_started}"
        return f"{run}, a path of {count} vertices", why or run.differs(0, f"paritysol {count - 1};\n{won}")


def workers_end_before_the_answer_is_taken(program):
    """Worker programs have ended once the answer is there, even if nobody takes it."""
    words = [program, "measure", "--workers", "2", "--apart", program]
    ran = subprocess.Popen(words, stdin=subprocess.PIPE, stdout=subprocess.PIPE, text=True)
    ran.stdin.write("".join(f"{v} {2 - v % 2} 0 {v - v % 2};\n" for v in range(100_000)))
    ran.stdin.close()
    ready, _, _ = select.select([ran.stdout], [], [], LIMIT)
    time.sleep(0.2)
    left = children_of(ran.pid)
    is_waiting = ran.poll() is None
    ran.kill()
    ran.stdout.close()
    ran.wait()
    left_behind(10)
    why = f"{len(left)} programs are still running" if left else None if ready and is_waiting else "no answer waited"
    return f"measure --workers 2 --apart {program}, whose answer isn't taken", why


def setup_frame(vertices, bounds):
    """The set-up of version 2 for these numbers of vertices and bounds, in hexadecimal."""
    each = b"".join(struct.pack(">II", 2 * place + 1, 1) for place in reversed(range(bounds)))
    return pretender.frame(pretender.SETUP, struct.pack(">BII", 2, vertices, bounds) + each).hex()


SETUP = "0000001a0101 00000002 00000002 00000003 00000001 00000001 00000001"
PART = "0000001602 00000001 00000000 00000001 00 00000001 00000000"
SERVED = [  # what a solver sends to a worker, what comes back, status, error stream
    (f"{SETUP} {PART} 000000050400001000 0000000106", "0000000e 03 00000002 00000001 00000000 01 00000003050100", 0, ""),
    (f"{SETUP} {PART} 000000050400000002 0000000106",
     "00000016 03 00000002 00000001 00000000 00 00000001 00000000 00000003050000", 0, ""),
    (f"{SETUP.replace('1a0101', '1a0102')} {PART} 000000050400001000 0000000106",
     "00000003050100 0000000e 07 00000002 00000001 00000000 01 00000003050100", 0, ""),
    ("000000050400001000", "00000003050204", 1, "parsolve: worker fault 4\n"),
    ("01000001", "0000000305020c", 1, "parsolve: worker fault 5\n"),
    ("000000", "", 1, "parsolve: worker fault 5\n"),
    (SETUP, "", 0, ""),
    ("", "", 0, ""),
    # 1,048,576 vertices with 64 bounds are as many numbers as a worker keeps, and with 65 they are more, whatever memory there is
    (setup_frame(2**20, 64), "00000003050100", 0, ""),
    (setup_frame(2**20, 65), "00000003050201", 1, "parsolve: out of memory\n"),
]


def serves(program, sent, reply, status, errors):
    """The program, run as a worker, writes this reply, and ends with this status and error stream."""
    with socket.create_server(("127.0.0.1", 0)) as listener:
        words = [program, "worker", "--port", str(listener.getsockname()[1])]
        ran = subprocess.Popen(words, stdin=subprocess.DEVNULL, stdout=subprocess.PIPE, stderr=subprocess.PIPE, text=True)
        stream, _ = listener.accept()
        with stream:
            stream.sendall(bytes.fromhex(sent))
            stream.shutdown(socket.SHUT_WR)
            came = b"".join(iter(lambda: stream.recv(65536), b""))
        output, told = ran.communicate(timeout=60)
    found, wanted = (came, ran.returncode, output, told), (bytes.fromhex(reply), status, "", errors)
    return f"worker on {sent}", None if found == wanted else f"{found!r}, wanted {wanted!r}"


def ends_amid_frames(program):
    """A worker that has very many set-ups to read ends soon after its solver has gone."""
    setup = bytes.fromhex("00000012 01 01 00100000 00000001 00000001 00100000")
    with socket.create_server(("127.0.0.1", 0)) as listener:
        words = [program, "worker", "--port", str(listener.getsockname()[1])]
        ran = subprocess.Popen(words, stdin=subprocess.DEVNULL, stdout=subprocess.PIPE, stderr=subprocess.PIPE, text=True)
        stream, _ = listener.accept()
        with stream:
            stream.setblocking(False)
            stream.send(setup * 20_000)
    try:
        output, told = ran.communicate(timeout=10)
    except subprocess.TimeoutExpired:
        ran.kill()
        output, told = ran.communicate()
    found = (ran.returncode, output, told)
    return "worker whose solver leaves amid frames", None if found == (0, "", "") else f"{found!r}"


def listens_before_it_reads(program, files, wanted):
    """With this number of file descriptors, the first fault of a command whose input doesn't exist is this one."""
    ran = subprocess.run([program, "solve", "--workers", "2", "--apart", "/proc/self/exe", "/nonexistent/game.pg"],
                         preexec_fn=lambda: resource.setrlimit(resource.RLIMIT_NOFILE, (files, files)), capture_output=True, text=True, timeout=LIMIT)
    found = (ran.returncode, ran.stdout, ran.stderr)
    return f"{files} file descriptors", None if found == (1, "", f"parsolve: {wanted}\n") else f"{found!r}"


def cases(program):
    """The checks of a program, the slow ones first."""
    own, nowhere = [program, "/proc/self/exe"], ["/nonexistent/parsolve", "/dev/null", ""]
    yield answers, program, "measure", TWO, "silent_once"
    yield ends_where_values_go_to_and_fro, program, "slow"
    for name in WAITING:
        yield answers, program, "measure", TWO, name
    yield answers, program, "solve", TWO, "never_connects", 16, 30
    for command, text in ANSWERS:
        for workers in (0, 1, 2, 16):
            yield answers, program, command, text, own[workers % 2], workers
        for path in nowhere:
            yield answers, program, command, text, path, 2
    for name in [*FAILING, "starts_the_worker"]:
        yield answers, program, "measure", TWO, name
        yield answers, program, "solve", THREE, name, 2
    for name in ("top_everywhere", "top_in_version_1"):
        yield says, program, "measure", TWO, name, 0, "0 T;\n1 T;\n"
        yield says, program, "solve", TWO, name, 3, "", "parsolve: undecided at 0\n"
    yield says, program, "measure", THREE, "one_too_much", 0, "0 T;\n1 T;\n2 1;\n"
    yield says, program, "solve", THREE, "one_too_much", 0, ANSWERS["solve", THREE]
    yield says, program, "measure", "0 0 0 9;\n", "never_connects", 1, "", (
        "parsolve: vertex 0 has successor 9, which no line defines\n")
    for text in (TWO, THREE, TOPS):
        for seed in range(5):
            yield wins_or_is_undecided, program, text, seed
    for command in ("measure", "solve"):
        for seed in range(20):
            yield lies_are_harmless, program, command, seed
    yield lies_slow_nothing, program
    yield killed_at_each_frame, program, "measure", TOPS
    yield killed_at_each_frame, program, "solve", THREE
    yield starts_anew, program
    yield others_stay_out, program
    yield other_users_stay_out, program
    yield takes_nobody_without_tables, program
    yield starts_none_as_its_owner, program
    yield starts_programs_for_what_they_keep, program, 11_000, True
    yield starts_programs_for_what_they_keep, program, 12_000, False
    yield workers_end_before_the_answer_is_taken, program
    yield ends_where_values_go_to_and_fro, program, "/proc/self/exe"
    yield leaves_what_programs_start, program
    yield workers_end_when_the_command_is_killed, program
    for row in SERVED:
        yield serves, program, *row
    yield ends_amid_frames, program
    yield listens_before_it_reads, program, 4, "cannot listen on 127.0.0.1"  # the port of the second worker would be the fifth
    yield listens_before_it_reads, program, 8, "cannot open /nonexistent/game.pg: No such file or directory (os error 2)"


def why_wrong(call, *rest):
    """Why a check fails, and what was checked, or None."""
    begin()
    name, why = call(*rest)
    return why and f"{name}: {why}"


def named():
    """(name, call) of each check; if there is no program, each is left out."""
    if case.PROGRAM is None:
        yield "nothing", lambda: case.LeftOut("no program is of these sources")
        return
    for number, (call, *rest) in enumerate(cases(case.PROGRAM)):
        yield f"{number:03} {call.__name__}", lambda call=call, rest=rest: why_wrong(call, *rest)


Tests = case.tests_by_name(__name__, named())
