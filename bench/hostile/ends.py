"""How runs of a whole monitor program end, and what is wrong with an end. What went out has to be a first part of the output of a run
without a fault (whole texts, where the program ended by itself), and the end has to be one that docs/USE.md names."""
import os
import pathlib
import subprocess

ROOT = pathlib.Path(__file__).resolve().parent.parent.parent
PROGRAM = str(ROOT / "crates/rbac_monitor/out/rbac_monitor")
EXAMPLES = ROOT / "examples"
DAY = (EXAMPLES / "first_day.jsonl").read_bytes()
DAY_TOLD = (EXAMPLES / "first_day.answers.jsonl").read_bytes()
# A run that takes longer hangs.
SECONDS = 60
NAMED_ENDS = {f"rbac_monitor: run: {name}" for name in ["Read", "Write", "NoMemory", "NoThread"]}
NAMED_ENDS |= {"rbac_monitor: founding: NoMemory", "rbac_monitor: audit: NoMemory"}


class Wrong(Exception):
    """The program did what it may not do."""


def right(holds, text):
    if not holds:
        raise Wrong(text)


def whole_path(program):
    """The program's path, since some are started by it in another folder, and others compare it."""
    return os.path.realpath(program)


def ended(process, *given):
    """What a process gave to its end. One that hangs is killed, which is wrong."""
    try:
        output, errors = process.communicate(*given, timeout=SECONDS)
    except subprocess.TimeoutExpired:
        process.kill()
        process.wait()
        raise Wrong(f"it hangs: no end within {SECONDS} s") from None
    return process.returncode, output, errors.decode(errors="replace").splitlines()


def whole_texts(output, told):
    """It is some first lines of what is told."""
    return told.startswith(output) and (not output or output.endswith(b"\n"))


def fault_or_whole(name, told, status, output, errors, begun):
    """A run that went through, or told its fault after whole texts. `begun` says whether the program's own code can have begun.
    Where a member's thread had too little memory it gave up: then a warning says so, and what is left is answered Stopped."""
    gave_up = [line for line in errors if "gave up" in line]
    if gave_up:
        errors = [line for line in errors if line not in gave_up]
        lines = output.splitlines(keepends=True)
        while lines and lines[-1].endswith(b'"refused":"Stopped"}\n'):
            lines.pop()
        output = b"".join(lines)
    if status == 0:
        right(gave_up and whole_texts(output, told) or output == told, f"{name}: status 0 without the whole output")
        return "gave up" if gave_up else "whole"
    right(whole_texts(output, told), f"{name}: {output!r} is no whole first part")
    if status == 1 and len(errors) == 1 and (errors[0] in NAMED_ENDS or errors[0].startswith("rbac_monitor: file: ")):
        return errors[0].removeprefix("rbac_monitor: ").split(" /")[0]
    right(not begun(output, status, errors), f"{name}: status {status}, {errors}")
    return "not begun"
