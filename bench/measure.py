#!/usr/bin/env python3
"""Runs a command and prints its user time and its greatest memory:
measure.py [--times N] [--limit SECONDS] [--says TEXT] [--status N] NAME COMMAND..

Of N runs it prints the one of least user time. A run that takes more processor time than the limit is stopped, and said to
be. Each run that ends must have the status, 0 where none is given, and print the text, where one is given.
"""
import os
import resource
import signal
import subprocess
import sys
import tempfile


def run(command, limit):
    def bound():
        resource.setrlimit(resource.RLIMIT_CPU, (limit, limit + 1))

    with tempfile.TemporaryFile() as printed:
        done = subprocess.Popen(command, stdin=subprocess.DEVNULL, stdout=printed, stderr=printed, preexec_fn=bound if limit else None)
        _, status, used = os.wait4(done.pid, 0)
        done.returncode = os.waitstatus_to_exitcode(status)
        printed.seek(0)
        return used, done.returncode, printed.read()


def main():
    words = sys.argv[1:]
    options = {"--times": "1", "--limit": "0", "--says": "", "--status": "0"}
    while words[0] in options:
        options[words[0]] = words[1]
        words = words[2:]
    name, command = words[0], words[1:]
    wanted = int(options["--status"])
    runs = []
    for _ in range(int(options["--times"])):
        used, status, printed = run(command, int(options["--limit"]))
        runs.append((used.ru_utime, used.ru_stime, used.ru_maxrss / 1024))
        if status != wanted:
            break
        if options["--says"].encode() not in printed:
            sys.exit("%s: didn't print %s" % (name, options["--says"]))
    stopped = "  stopped" if status in (-signal.SIGXCPU, -signal.SIGKILL) else ""
    print("%-28s user %6.2f s  system %5.2f s  memory %7.1f MB%s" % ((name,) + min(runs) + (stopped,)))
    if status != wanted and not stopped:
        sys.exit("%s: status %d" % (name, status))


main()
