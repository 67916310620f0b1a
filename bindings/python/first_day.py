"""Founds a policy by the file that its word names, and answers the commands of standard input, a JSON object a line."""

import pathlib
import sys

import fochillun

with fochillun.Monitor(pathlib.Path(sys.argv[1]).read_bytes()) as monitor:
    for command in sys.stdin.buffer:
        print(monitor.apply_text(command).decode())
