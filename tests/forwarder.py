#!/usr/bin/env python3
"""Stands in for ssh, as the script of docs/commands.md calls it for a worker on another machine. It starts PARSOLVE_PROGRAM as that worker, with a port
of its own in place of the far machine's, and passes on what worker and solver send, each byte PARSOLVE_DELAY milliseconds late.
"""
import os
import queue
import socket
import subprocess
import sys
import threading
import time


def note(name):
    """Notes that something happened."""
    open(os.path.join(os.environ["PARSOLVE_FOLDER"], name), "w").close()


def pump(name, source, target, delay):
    """Passes on what the source of this name sends until it ends; then the target's input ends too."""
    waiting = queue.SimpleQueue()

    def write():
        for due, data in iter(waiting.get, None):
            time.sleep(max(0, due - time.monotonic()))
            target.sendall(data)
        target.shutdown(socket.SHUT_WR)

    writer = threading.Thread(target=write, daemon=True)
    writer.start()
    while data := source.recv(1 << 20):
        note(name)
        waiting.put((time.monotonic() + delay, data))
    waiting.put(None)
    writer.join()


def main():
    port = sys.argv[-1]
    forwarded = f"127.0.0.1:{port}:127.0.0.1:{port}"
    assert sys.argv[1:] == ["-n", "-o", "ExitOnForwardFailure=yes", "-R", forwarded, "HOST", "parsolve", "worker", "--port", port], sys.argv
    if "PARSOLVE_REFUSES" in os.environ:  # as if the far machine's port were taken
        sys.exit(255)
    delay = float(os.environ.get("PARSOLVE_DELAY", "0")) / 1000
    with socket.create_server(("127.0.0.1", 0)) as far:
        worker = subprocess.Popen([os.environ["PARSOLVE_PROGRAM"], "worker", "--port", str(far.getsockname()[1])])
        inner, _ = far.accept()
    outer = socket.create_connection(("127.0.0.1", int(port)))
    for stream in (inner, outer):
        stream.setsockopt(socket.IPPROTO_TCP, socket.TCP_NODELAY, 1)
    back = threading.Thread(target=pump, args=["worker", inner, outer, delay], daemon=True)
    back.start()
    pump("solver", outer, inner, delay)
    back.join()
    worker.wait()


if __name__ == "__main__":
    try:
        main()
    except (BrokenPipeError, ConnectionResetError):
        pass
