"""What tests/manners tries its cases with: commands with a time limit and what comes of them, a line for each case, and descriptors that
fail."""
import contextlib
import os
import pathlib
import pty
import re
import select
import signal
import socket
import subprocess
import time
import tty

HERE = pathlib.Path(__file__).resolve().parent.parent
count = {"ok": 0, "WRONG": 0, "--": 0}


def report(name, wrong="", skipped=""):
    word = "--" if skipped else "WRONG" if wrong else "ok"
    count[word] += 1
    print(f"{word}  {name}" + (f": not tried, because {skipped}" if skipped else f": {wrong}" if wrong else ""), flush=True)


def fits(came, expected):
    """Expected is the thing itself, a pattern for all of it, or a tuple of what it may be."""
    if isinstance(expected, re.Pattern):
        return expected.fullmatch(came) is not None
    return came in expected if isinstance(expected, tuple) else came == expected


def short(thing):
    text = repr(thing.pattern if isinstance(thing, re.Pattern) else thing)
    return text if len(text) < 160 else f"{text[:100]} .. {text[-50:]}"


def compare(name, *things):
    """Reports on a case. A thing is what it is, what came and what was expected."""
    report(name, "; ".join(f"{what} {short(came)}, expected {short(expected)}" for what, came, expected in things if not fits(came, expected)))


def check(name, came, status=0, out="", err="", *more):
    """Reports on what came of a command, and on more things."""
    compare(name, *zip(("status", "standard output", "standard error"), came, (status, out, err)), *more)


def end(process):
    """Ends what is left of a command's group."""
    with contextlib.suppress(ProcessLookupError):
        os.killpg(process.pid, signal.SIGKILL)
    process.wait()


def tried(command, given=b"", stdin=subprocess.PIPE, stdout=subprocess.PIPE, stderr=subprocess.PIPE, wait=30, cwd=HERE, **how):
    """What comes of a command, words or a line for bash: its exit status, standard output and standard error."""
    words = ["bash", "-c", command] if isinstance(command, str) else command
    process = subprocess.Popen(words, stdin=stdin, stdout=stdout, stderr=stderr, cwd=cwd, start_new_session=True, **how)
    try:
        out, err = process.communicate(given if stdin == subprocess.PIPE else None, wait)
        status = process.returncode
    except subprocess.TimeoutExpired:
        end(process)
        out, err = process.communicate()
        status = f"none in {wait} s"
    finally:
        end(process)
    return status, (out or b"").decode("latin-1"), (err or b"").decode("latin-1")


@contextlib.contextmanager
def begun(*words, stderr=subprocess.DEVNULL):
    """A command that goes on while it is given more."""
    process = subprocess.Popen(words, cwd=HERE, stdin=subprocess.PIPE, stdout=subprocess.PIPE, stderr=stderr, bufsize=0, start_new_session=True)
    try:
        yield process
    finally:
        end(process)
        process.stdin.close()
        process.stdout.close()


def heard(process, expected, seconds=2):
    """What the command prints, until that is as expected; with None, until no process has its output open."""
    text, until = "", time.monotonic() + seconds
    while text != expected:
        if not select.select([process.stdout], [], [], max(0, until - time.monotonic()))[0]:
            return f"{text}(and no more in {seconds} s)"
        more = os.read(process.stdout.fileno(), 65536)
        if not more:
            break
        text += more.decode("latin-1")
    return text


def script(path, text):
    path.parent.mkdir(parents=True, exist_ok=True)
    path.write_text("#!/bin/sh\n" + text)
    path.chmod(0o755)


def state(folder):
    """Names, sizes and times of all in a folder but .git."""
    return {(str(path), path.lstat().st_size, path.lstat().st_mtime_ns) for path in folder.rglob("*") if folder / ".git" not in [path, *path.parents]}


def unchanged(folder, before):
    """For `compare`: that all in a folder is as it was before."""
    return "changed", sorted({path for path, _, _ in before ^ state(folder)}), []


def would_block(data):
    """A pipe that brings the data, then fails, since it does not wait for more. Such a function gives the end to read, and what else must stay open."""
    ours, theirs = os.pipe()
    os.set_blocking(ours, False)
    os.write(theirs, data)
    return ours, theirs


def is_reset(data):
    """A connection that brings the data, then fails, since the other end has closed it without reading what it got."""
    ours, theirs = socket.socketpair()
    ours.send(b"unread")
    theirs.send(data)
    theirs.close()
    return ours.detach(),


def hangs_up(data):
    """A terminal that brings the data, then fails."""
    ours, theirs = pty.openpty()
    tty.setraw(theirs)
    os.write(theirs, data)
    os.close(theirs)
    return ours,


def gone():
    """A pipe to write to, whose reader has gone away."""
    ours, theirs = os.pipe()
    os.close(ours)
    return theirs


def full(room):
    """A pipe that would block when more than this room, some pages, is written to it; and how much is in it."""
    ours, theirs = os.pipe()
    os.set_blocking(theirs, False)
    held = os.write(theirs, bytes(1 << 20))
    return ours, theirs, held - len(os.read(ours, room))
