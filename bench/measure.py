"""How both benchmarks measure a command that reads a file on its standard input."""
import os, subprocess, sys, time


def memory(command, path):
    """The peak memory of one run in bytes. GNU time tells the program's own."""
    with open(path, "rb") as source:
        command = ["/usr/bin/time", "-f", "%M", *command]
        done = subprocess.run(command, stdin=source, stdout=subprocess.DEVNULL, stderr=subprocess.PIPE, check=True)
    return int(done.stderr.split()[-1]) * 1024


def once(command, path):
    """Wall time and user time of one run in seconds."""
    started = time.perf_counter()
    pid = os.fork()
    if pid == 0:
        os.dup2(os.open(path, os.O_RDONLY), 0)
        os.dup2(os.open(os.devnull, os.O_WRONLY), 1)
        os.execvp(command[0], command)
    _, status, usage = os.wait4(pid, 0)
    if status != 0:
        sys.exit(f"{path} ended with {status}")
    return time.perf_counter() - started, usage.ru_utime


def measured(command, path, runs):
    """The least wall time of the runs, their user time on average, and the least peak memory of three. A run's own user
    time is told in ticks, so short runs are many."""
    times = [once(command, path) for _ in range(runs)]
    return min(t[0] for t in times), sum(t[1] for t in times) / runs, min(memory(command, path) for _ in range(3))
