"""What the benchmarks share: the program, runs of a program on a text or in a folder, and repeated texts."""
import os
import subprocess
import sys
import time

ROOT = os.path.dirname(os.path.dirname(os.path.abspath(__file__)))
# Where the client of a session is.
sys.path.append(os.path.join(ROOT, "share/site"))
PROGRAM = os.path.join(ROOT, "crates/site_bench/out/site_bench")
KIB = 1024
MIB = 1024 * KIB


def sitebuild_program(words):
    """The program that the words of a command line begin with, or the one that .ci/program prints."""
    if words:
        return os.path.abspath(words[0])
    printed = subprocess.run(["bash", os.path.join(ROOT, ".ci/program")], stdout=subprocess.PIPE, text=True)
    return printed.stdout.strip() or sys.exit(1)


def measure(command, path, made=os.devnull):
    """Wall seconds, peak bytes and status of one run that reads the file; what it writes goes to another file, or is dropped."""
    started = time.perf_counter()
    child = os.fork()
    if child == 0:
        os.dup2(os.open(path, os.O_RDONLY), 0)
        os.dup2(os.open(made, os.O_WRONLY | os.O_CREAT | os.O_TRUNC, 0o644), 1)
        os.execvp(command[0], command)
    _, status, usage = os.wait4(child, 0)
    return time.perf_counter() - started, usage.ru_maxrss * KIB, os.waitstatus_to_exitcode(status)


def written(path, make):
    """Writes the text that `make` makes, in a process of its own: what this process holds when it forks counts to the peak of what it runs."""
    child = os.fork()
    if child == 0:
        with open(path, "w", newline="") as file:
            file.write(make())
        os._exit(0)
    os.waitpid(child, 0)


def best(command, path):
    """The quickest of three runs."""
    return min(measure(command, path) for _ in range(3))


def repeated(part, size):
    """The part again and again, up to a size."""
    return part * (size // len(part))


def size_name(size):
    return f"{size // MIB} MiB" if size >= MIB else f"{size // KIB} KiB"


class Run:
    """What one run in a folder took: wall and processor seconds, and peak bytes. What it prints is dropped."""

    def __init__(self, command, folder, environment=None):
        started = time.perf_counter()
        child = os.fork()
        if child == 0:
            os.chdir(folder)
            null = os.open(os.devnull, os.O_RDWR)
            os.dup2(null, 1)
            os.execvpe(command[0], command, {**os.environ, **(environment or {})})
        _, status, usage = os.wait4(child, 0)
        self.wall = time.perf_counter() - started
        self.processor = usage.ru_utime + usage.ru_stime
        self.peak = usage.ru_maxrss * 1024
        if status:
            sys.exit(f"{command} in {folder} ended with {status}")

    def __str__(self):
        return f"{self.wall:8.3f} s wall {self.processor:8.3f} s processor {self.peak / MIB:7.0f} MiB"


def set_aside(folder, made):
    """Moves an earlier output away. It is not deleted: ext4 makes files slowly for some seconds after many were deleted."""
    path = os.path.join(folder, made)
    if os.path.exists(path):
        os.rename(path, f"{folder}.{made}.{time.monotonic_ns()}")
