"""A monitor that is given commands one at a time. Build the program first: (cd crates/rbac_monitor && rt run < stdin)"""
import json
import pathlib
import statistics
import sys
import time

ROOT = pathlib.Path(__file__).resolve().parent.parent.parent
sys.dont_write_bytecode = True
sys.path.insert(0, str(ROOT / "examples"))
from client import Client

PROGRAM = sys.argv[1] if len(sys.argv) > 1 else ROOT / "crates/rbac_monitor/out/rbac_monitor"


class Monitor(Client):
    """A client that times each command. It writes both lines at once, so that one command is one wait."""

    def __init__(self, *words):
        super().__init__([PROGRAM, *words])

    def ask(self, name, **fields):
        """Submits and delivers a command, and gives its answer and the seconds that it took."""
        event = {"do": "submit", "at": 1, "caller": 0, "serial": self.serial, "command": {"name": name, **fields}}
        self.serial += 1
        begun = time.perf_counter()
        self.process.stdin.write(json.dumps(event) + '\n{"do":"deliver","at":1}\n')
        self.process.stdin.flush()
        self.process.stdout.readline()
        answer = json.loads(self.process.stdout.readline())["answer"]
        return answer, time.perf_counter() - begun

    def do(self, wanted, name, **fields):
        """Submits and delivers a command that is answered so, and gives the seconds that it took."""
        answer, took = self.ask(name, **fields)
        if answer != wanted:
            sys.exit(f"{name} {fields}: {answer}")
        return took

    def pair(self, name, ascendant, descendant):
        return self.do("Done", name, ascendant=f"role{ascendant}", descendant=f"role{descendant}")


def tell(took):
    """Prints the median of the seconds of each command."""
    for name, seconds in took.items():
        print(f"  {name}: {statistics.median(seconds) * 1000:.2f} ms")


def pairs_below(roles):
    """Two declared pairs a role: role I stands below roles I/2 and I/3. The lowest come first."""
    return sorted({(above, role) for role in range(2, roles + 1) for above in (role // 2, role // 3) if above}, reverse=True)
