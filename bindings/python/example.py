"""A policy in a Python program: the hospital of the examples, up to its first session, and one check."""

import json
import pathlib

import fochillun

examples = pathlib.Path(__file__).resolve().parents[2] / "examples"
with fochillun.Monitor((examples / "hospital.toml").read_bytes()) as monitor:
    for line in (examples / "hospital.jsonl").read_text().splitlines()[:27]:
        monitor.apply(json.loads(line)["command"])
    print("mara may prescribe:", monitor.check("round", "prescribe", "drug"))
    print("mara may dispense:", monitor.check("round", "dispense", "drug"))
