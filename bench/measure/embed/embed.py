"""Times Monitor.check and Monitor.apply of bindings/python, beside the cheapest call that ctypes makes of the same library."""

import ctypes
import pathlib
import statistics
import sys
import time

sys.path.insert(0, str(pathlib.Path(__file__).resolve().parents[3] / "bindings/python"))
import fochillun

LAPS, CALLS = 9, 20_000
SAMPLE = b'version = 1\nmembers = 1\noperations = ["read"]\nobjects = ["ledger"]\npermissions = [["read", "ledger"]]\n'


def timed(what, call):
    laps = []
    for _ in range(LAPS):
        begun = time.process_time_ns()
        for _ in range(CALLS):
            call()
        laps.append((time.process_time_ns() - begun) / CALLS)
    print(f"python\t{what}\t{statistics.median(laps):.0f}\tns\tfrom {min(laps):.0f} to {max(laps):.0f}")


with fochillun.Monitor(SAMPLE) as monitor:
    for command in [
        {"name": "AddUser", "user": "ann"},
        {"name": "AddRole", "role": "clerk"},
        {"name": "GrantPermission", "operation": "read", "object": "ledger", "role": "clerk"},
        {"name": "AssignUser", "user": "ann", "role": "clerk"},
        {"name": "CreateSession", "user": "ann", "session": "s1", "roles": ["clerk"]},
    ]:
        assert monitor.apply(command) == "Done"
    assert monitor.check("s1", "read", "ledger")
    calls = fochillun._library()
    empty = ctypes.byref(fochillun._Place())
    timed("ctypes alone: policy_check of an empty place", lambda: calls.policy_check(empty, b"s1", 2, b"read", 4, b"ledger", 6))
    timed("ctypes alone: policy_close of an empty place", lambda: calls.policy_close(empty))
    timed("Monitor.check", lambda: monitor.check("s1", "read", "ledger"))
    timed("Monitor.apply_text of CheckAccess", lambda: monitor.apply_text(b'{"name":"CheckAccess","session":"s1","operation":"read","object":"ledger"}'))
    timed("Monitor.apply of CheckAccess", lambda: monitor.apply({"name": "CheckAccess", "session": "s1", "operation": "read", "object": "ledger"}))
