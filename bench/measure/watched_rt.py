"""rt with a program of ours wherever it runs rattle, for what is to be known of each check that it makes."""
import os
import pathlib
import shutil
import subprocess
import sys

ROOT = pathlib.Path(__file__).resolve().parent.parent.parent
RT = pathlib.Path(os.path.realpath(shutil.which("rt") or sys.exit("there is no rt")))
RATTLE = RT.parent / "rattle"
MARK = "KIT = rtlib.KIT"
RUN = """import sys
sys.argv = sys.argv[1:]
exec(compile(sys.stdin.read(), sys.argv[0], "exec"), {"__name__": "__main__", "__file__": sys.argv[0]})"""


def run_rt(stand_in, words, told, **how):
    """Runs rt with these words and returns its status. Whatever rt gives to rattle goes to the program stand_in, whose environment has what told says too."""
    text = RT.read_text(encoding="utf-8")
    if text.count(MARK) != 1:
        sys.exit(f"{pathlib.Path(stand_in).name}: this kit's rt is another one")
    text = text.replace(MARK, f"rtlib.RATTLE = {str(pathlib.Path(stand_in).resolve())!r}\n{MARK}")
    return subprocess.run([sys.executable, "-c", RUN, RT, *words], input=text, text=True, env={**os.environ, **told}, **how).returncode


def run_rattle(words):
    """Runs rattle with these words, and returns the status that stands for how it ended."""
    status = subprocess.run([RATTLE, *words]).returncode
    return status if status >= 0 else 128 - status


def crate_of(words):
    """Returns the crate that a check with these words is of, or an empty text."""
    return words[words.index("--crate-name") + 1] if "--crate-name" in words else ""
