"""Runs commands for bench/run and measures each: a small process of its own, since the peak of memory that the system
tells of a process is never below what its parent had when it began it.

A line of the input is a JSON list of words; the answer is a line with the seconds, the peak in bytes, the status and
the first line of the output, which goes to the file `report` of the current folder.
"""
import json
import os
import sys
import time


def run(words):
    to_report = [(os.POSIX_SPAWN_OPEN, 1, "report", os.O_WRONLY | os.O_CREAT | os.O_TRUNC, 0o600),
                 (os.POSIX_SPAWN_OPEN, 0, os.devnull, os.O_RDONLY, 0)]
    begun = time.perf_counter()
    child = os.posix_spawnp(words[0], words, os.environ, file_actions=to_report)
    _, status, usage = os.wait4(child, 0)
    took = time.perf_counter() - begun
    with open("report", "rb") as report:
        first = report.readline(200).decode(errors="replace").rstrip("\n")
    return took, usage.ru_maxrss * 1024, os.waitstatus_to_exitcode(status), first


for line in sys.stdin:
    print(json.dumps(run(json.loads(line))), flush=True)
