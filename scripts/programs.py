"""Runs programs, asks fixcheck, and builds the C code that is preloaded. A short command imports nothing for several runs at a time."""
import contextlib
import os
import resource
import signal
import subprocess
import sys
import tempfile
import time

from scripts.repository import BUILD, ROOT

# how fixcheck ends
LEGAL, NOT_LEGAL, UNDECIDED = 0, 1, 6
# what each library that is preloaded is compiled with beside the flags of all
LIBRARY = ("-shared", "-fPIC")
FLAGS = {"spoil.c": ("-static",), "step.c": (*LIBRARY, "-mno-red-zone"), "watch.c": LIBRARY}


def run_bytes(command, given=b"", seconds=120, **how):
    """The status, the text and the message of a command, as bytes."""
    how = {"stdout": subprocess.PIPE, "stderr": subprocess.PIPE, "timeout": seconds, **how}
    it = subprocess.run(command, input=given, check=False, **how)
    return it.returncode, it.stdout, it.stderr


class TooLong(Exception):
    """A program printed more bytes than it may."""


def run_within(most, command, given, seconds):
    """The status, the text and the message of a program. Raises TooLong beyond `most` bytes of either. What it began ends with it."""
    import threading

    def kill():
        with contextlib.suppress(ProcessLookupError):
            os.killpg(begun.pid, signal.SIGKILL)

    def kept(pipe):
        data = bytearray()
        while len(data) <= most and (part := pipe.read1(1 << 16)):
            data += part
        if len(data) > most:
            kill()
        written[pipe] = bytes(data)

    def pass_on():
        with contextlib.suppress(BrokenPipeError), begun.stdin as pipe:
            pipe.write(given)

    written, pipe = {}, subprocess.PIPE
    with subprocess.Popen(command, stdin=pipe, stdout=pipe, stderr=pipe, start_new_session=True) as begun:
        threads = [threading.Thread(target=kept, args=(it,)) for it in (begun.stdout, begun.stderr)] + [threading.Thread(target=pass_on)]
        for it in threads:
            it.start()
        try:
            status = begun.wait(seconds)
        finally:
            kill()
            for it in threads:
                it.join()
        text, message = written[begun.stdout], written[begun.stderr]
    if max(len(text), len(message)) > most:
        raise TooLong(f"it printed more than {most:,} bytes")
    return status, *(it.decode(errors="backslashreplace") for it in (text, message))


def given_time(seconds):
    """Returns the seconds for a run that takes so many alone: more if several processes wait for each processor."""
    return seconds * max(1, os.getloadavg()[0] / os.cpu_count())


def run(command, given=b"", seconds=120, **how):
    """The same, decoded. A byte that is no character shows as `\\x` and its digits."""
    given = given.encode() if isinstance(given, str) else given
    status, *written = run_bytes(command, given, seconds, **how)
    return status, *(it.decode(errors="backslashreplace") for it in written)


def in_parallel(function, cases):
    """Returns the function's result for each case, in their order. Several run at a time."""
    import concurrent.futures
    with concurrent.futures.ThreadPoolExecutor(os.cpu_count()) as pool:
        return list(pool.map(function, cases))


def in_processes(function, cases, each):
    """Yields the function's result for each case, in their order. Several processes take `each` cases at a time."""
    import concurrent.futures
    import multiprocessing
    with concurrent.futures.ProcessPoolExecutor(os.cpu_count(), multiprocessing.get_context("fork")) as pool:
        yield from pool.map(function, cases, chunksize=each)


def difference(found, wanted):
    """Returns how a status, a text and a message differ from the expected ones: nothing if they don't."""
    if found[0] != wanted[0]:
        return f"ended with status {found[0]}, and not {wanted[0]}, and said {found[2][:300]!r}"
    if found[1] != wanted[1]:
        at = len(os.path.commonprefix([found[1], wanted[1]]))
        parts = f"{found[1][at : at + 60]!r}, and not {wanted[1][at : at + 60]!r}"
        return f"wrote another text, from byte {at} on: {parts}"
    return "" if found[2] == wanted[2] else f"said {found[2][:300]!r}, and not {wanted[2]!r}"


def limited(kibibytes):
    """Returns how a program is run that has no more memory."""
    size = 1024 * kibibytes
    return {"preexec_fn": lambda: resource.setrlimit(resource.RLIMIT_AS, (size, size))}


@contextlib.contextmanager
def kept_script(script):
    """The path of a file that has the script for as long as it is needed."""
    with tempfile.NamedTemporaryFile(suffix=".script") as file:
        file.write(script)
        file.flush()
        yield file.name


def verdict(fixcheck, script, text, *options):
    """The status, the lines and the message of fixcheck on a text. In the message `script` replaces the script's path."""
    with kept_script(script) as path:
        status, said, message = run([fixcheck, *options, path, "-"], text, given_time(120))
    return status, said.splitlines(), message.replace(path, "script")


def built(source):
    """Builds a library or a program of tests/, and returns its path. It is moved into place, so that two builds at once do no harm."""
    os.makedirs(BUILD, exist_ok=True)
    ending = ".so" if "-shared" in FLAGS[source] else ""
    path = os.path.join(BUILD, source.removesuffix(".c") + ending)
    made, flags = f"{path}.{os.getpid()}", ["-O2", "-Wall", "-Wextra", "-Werror", *FLAGS[source]]
    subprocess.run(["cc", *flags, "-o", made, f"{ROOT}/tests/{source}"], check=True)
    os.replace(made, path)
    return path


def preloaded(library, **variables):
    """Returns how a program is run with a library of build/: there, since the loader can't read a path with a space or a colon."""
    return {"env": {**os.environ, "LD_PRELOAD": f"./{library}.so", **variables}, "cwd": BUILD}


class Progress:
    """A line on standard error, where that is a terminal."""

    def __init__(self):
        self.is_shown, self.last = sys.stderr.isatty(), 0

    def show(self, words):
        if self.is_shown and time.monotonic() - self.last > 0.2:
            self.last = time.monotonic()
            print(f"\r\033[K{words}", end="", file=sys.stderr, flush=True)

    def end(self):
        if self.is_shown:
            print("\r\033[K", end="", file=sys.stderr, flush=True)


def in_turns(fixfiles, script, seed, turn, *options):
    """Plays with threads in turns of at most `turn` instructions (tests/step.c), or as they like for 0."""
    how = preloaded("step", SEED=str(seed), TURN=str(turn)) if turn else {}
    return run([fixfiles, *options], script, **how)
