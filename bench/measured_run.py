"""Runs a program for a limit of seconds, and reads the port table that it prints."""
import os
import resource
import signal
import subprocess
import tempfile

MEMORY = 4 << 30


def limits(seconds):
    resource.setrlimit(resource.RLIMIT_CPU, (seconds, seconds + 1))
    resource.setrlimit(resource.RLIMIT_AS, (MEMORY, MEMORY))
    resource.setrlimit(resource.RLIMIT_CORE, (0, 0))


def timed(seconds, folder, *command):
    """What a command printed, its status, the processor seconds that it took and its memory in KiB at most; no status where it
    took more processor seconds than it may."""
    with tempfile.TemporaryFile() as out:
        child = subprocess.Popen(command, stdout=out, stderr=subprocess.STDOUT, cwd=folder, preexec_fn=lambda: limits(seconds))
        _, status, used = os.wait4(child.pid, 0)
        child.returncode = 0
        out.seek(0)
        printed = out.read().decode(errors="replace")
    took = used.ru_utime + used.ru_stime
    late = os.WIFSIGNALED(status) and os.WTERMSIG(status) in (signal.SIGXCPU, signal.SIGKILL)
    return printed, None if late else os.waitstatus_to_exitcode(status), took, used.ru_maxrss


def measured(limit, *command):
    """What a command printed, its status (None past the limit), its processor seconds and its memory at most in MiB. GNU
    time starts it: a child that Python starts is charged with Python's own memory."""
    with tempfile.NamedTemporaryFile("r") as told:
        timed = ("/usr/bin/time", "-q", "-f", "%U %S %M", "-o", told.name, "--", "timeout", "-s", "KILL", str(limit), *command)
        ran = subprocess.run(timed, stdout=subprocess.PIPE, stderr=subprocess.DEVNULL, text=True)
        user, system, memory = told.read().split()[-3:]
    status = None if ran.returncode in (124, 137) else ran.returncode
    return ran.stdout, status, float(user) + float(system), int(memory) / 1024


def matching_in(printed, net):
    """The matching whose port table a report has, as bijections of the inputs and the outputs."""
    found = {"input": [None] * net[0], "output": [None] * len(net[2])}
    for line in printed.splitlines()[1:]:
        left, right = line.split(" = ")
        words = right.split(" ")
        flip = int(words[0] == "not")
        found[left.split(" ")[0]][int(left.split(" ")[1])] = (int(words[1 + flip]), flip)
    return found["input"], found["output"]
