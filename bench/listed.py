"""What a service takes for a list of many alerts, which other benches set their figures beside."""
import json
import os
import subprocess
import sys
import tempfile
import time

from served import ALERTS, PROGRAM, ROOT, Program, reply_to

# The program that drives parts of amring by themselves; `rt run` in its folder proves and builds it.
PARTS = os.path.join(ROOT, "crates", "am_bench", "out", "am_bench")
TENANT = "a"
LISTS = 30
POSTED = 100
# How long a service is left alone once it has replied, in seconds: it gives back what the reply took.
A_PAUSE = 0.02


def run(words):
    """One run of a program: its processor time in seconds, its greatest memory in MiB, and what it printed."""
    with tempfile.TemporaryFile() as told:
        child = subprocess.Popen([*map(str, words)], stdin=subprocess.DEVNULL, stdout=told)
        _, status, used = os.wait4(child.pid, 0)
        child.returncode = os.waitstatus_to_exitcode(status)
        if child.returncode != 0:
            sys.exit(f"{words[0]} ended with status {child.returncode}")
        told.seek(0)
        return used.ru_utime + used.ru_stime, used.ru_maxrss / 1024, told.read()


def seconds(words, runs):
    """The least processor time of so many runs."""
    return min(run(words)[0] for _ in range(runs))


def alert(number):
    labels = {
        "alertname": "InstanceDown",
        "cluster": "eu-west-1",
        "instance": f"node-{number * 7919 % 99991}:9100",
        "job": f"prod-{number % 100}",
        "severity": "critical",
    }
    return {"labels": labels, "annotations": {"summary": "The instance is down."}}


def post_all(port, count):
    """Posts so many alerts."""
    for first in range(0, count, POSTED):
        alerts = [alert(number) for number in range(first, min(first + POSTED, count))]
        status, told = reply_to(port, "POST", ALERTS, TENANT, json.dumps(alerts).encode())
        if status != 200:
            sys.exit(f"alerts are answered with {status} {told.decode(errors='replace')}")


def spent(process):
    """The processor time that a process has taken, in seconds."""
    with open(f"/proc/{process.pid}/schedstat", encoding="ascii") as told:
        return int(told.read().split()[0]) / 1e9


def cost_of_list(service, count):
    """What one list costs a service that has so many alerts, in seconds of its processor time."""
    before = spent(service.process)
    status, told = reply_to(service.port, "GET", ALERTS, TENANT)
    time.sleep(A_PAUSE)
    cost = spent(service.process) - before
    if status != 200 or len(json.loads(told)) != count:
        sys.exit(f"a list of {count} alerts is answered with {status}")
    return cost


def listed(count):
    """What a list of so many alerts costs a service, in seconds, the least of several; nothing where `amring` isn't
    built."""
    if not os.access(PROGRAM, os.X_OK):
        return None
    service = Program(PROGRAM)
    try:
        if not service.wait_until_ready():
            sys.exit("amring serve doesn't answer")
        post_all(service.port, count)
        return min(cost_of_list(service, count) for _ in range(LISTS))
    finally:
        service.kill()
