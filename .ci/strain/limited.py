"""Runs a program with a small stack, and writes down what it took: the most memory in KiB, and the processor's seconds.

usage: python3 limited.py FILE STACK_KIB PROGRAM [WORD ..]     (the status is the program's; where a signal ended it, the same one ends this)
"""
import os
import resource
import signal
import sys

place, stack, program = sys.argv[1], int(sys.argv[2]) << 10, sys.argv[3:]
child = os.fork()
if child == 0:
    resource.setrlimit(resource.RLIMIT_STACK, (stack, stack))
    resource.setrlimit(resource.RLIMIT_CORE, (0, 0))
    os.execv(program[0], program)
_, status, used = os.wait4(child, 0)
with open(place, "w") as file:
    file.write(f"{used.ru_maxrss} {used.ru_utime + used.ru_stime}")
if os.WIFSIGNALED(status):
    resource.setrlimit(resource.RLIMIT_CORE, (0, 0))
    signal.signal(os.WTERMSIG(status), signal.SIG_DFL) if os.WTERMSIG(status) != signal.SIGKILL else None
    os.kill(os.getpid(), os.WTERMSIG(status))
sys.exit(os.WEXITSTATUS(status))
