"""What the scripts of this folder do with the built program: they run it, serve a bank by it, ask as a client, and count the
cases that passed. A script's word is another program to try in its place."""
import contextlib
import os
import pathlib
import socket
import subprocess
import sys
import threading
import time

TOP = pathlib.Path(__file__).resolve().parent.parent
PROGRAM = pathlib.Path(sys.argv[1]).resolve() if sys.argv[1:] else TOP / "crates/smallbank/out/smallbank"
NAME = pathlib.Path(sys.argv[0]).name
PATIENT = 30  # seconds: nothing here takes so long where all is well

results = []


def case(check):
    """Runs a case, and keeps whether it passed."""
    try:
        check()
        results.append(True)
    except Exception as fault:
        results.append(False)
        print(f"{NAME}: {check.__name__} FAILED: {fault!r}", file=sys.stderr)
    return check


def tell_and_end():
    """The last line, and the script's status."""
    print(f"{NAME}: {sum(results)} passed, {len(results) - sum(results)} failed")
    sys.exit(0 if all(results) else 1)


def run(words, given=b"", **options):
    options = {"input": given, "stdout": subprocess.PIPE, **options}
    if "stdin" in options:
        del options["input"]
    return subprocess.run([PROGRAM, *words], stderr=subprocess.PIPE, timeout=PATIENT, **options)


def expect(words, given, status, printed=None, told=None):
    ended = run(words, given)
    assert ended.returncode == status, f"{words}: status {ended.returncode}: {ended.stderr[:200]}"
    assert printed is None or ended.stdout == printed, f"{words}: printed {ended.stdout[:200]}"
    assert told is None or told in ended.stderr, f"{words}: told {ended.stderr[:200]}"
    return ended


@contextlib.contextmanager
def watched(words, **options):
    """A process that is killed where it lasts too long, so that nothing here waits for ever."""
    with subprocess.Popen([PROGRAM, *words], **options) as process:
        watch = threading.Timer(2 * PATIENT, process.kill)
        watch.start()
        try:
            yield process
        finally:
            watch.cancel()
            process.kill()


def threads_of(process):
    return len(os.listdir(f"/proc/{process.pid}/task"))


def wait_until(what, holds):
    for _ in range(PATIENT * 100):
        if holds():
            return
        time.sleep(0.01)
    raise AssertionError(f"never: {what}")


def port_of(line):
    assert line.startswith(b"listening 127.0.0.1:"), f"printed {line}"
    return int(line.rpartition(b":")[2])


def printed_to_the_end(process):
    """What a server prints until it ends, and its status."""
    printed = process.stdout.read()
    return printed, process.wait(PATIENT)


def connect(port):
    return socket.create_connection(("127.0.0.1", port), timeout=PATIENT)


def converse(port, sent):
    """All that a client is told who sends this and then no more."""
    with connect(port) as client:
        client.sendall(sent)
        client.shutdown(socket.SHUT_WR)
        return b"".join(iter(lambda: client.recv(4096), b""))


def free_port():
    with socket.create_server(("127.0.0.1", 0)) as listener:
        return listener.getsockname()[1]
