"""States of a run as the fold of its lines of JSON (docs/VIEW.md), and models to walk in: a second reading, which uses nothing of the programs."""
import glob
import json
import os
import subprocess
import tempfile

from lib.rows import all_rows

TOP = os.path.dirname(os.path.dirname(os.path.dirname(os.path.abspath(__file__))))
VIEW = os.environ.get("SPINVIEW") or os.path.join(TOP, "crates", "spinview", "out", "spinview")


class State:
    """The fold of the lines up to one, which has the objects of the processes and channels as they are told last."""

    def __init__(self, start):
        self.globals, self.channels, self.processes = dict(start["globals"]), {c["chan"]: c for c in start["channels"]}, {p["proc"]: p for p in start["processes"]}

    def step(self, line):
        self.globals.update(line.get("globals", {}))
        self.channels.update({c["chan"]: c for c in line.get("channels", [])})
        self.channels = {n: c for n, c in self.channels.items() if n <= line["open"]}
        for told in line.get("processes", []):
            before = self.processes.get(told["proc"], {}).get("locals", {})
            self.processes[told["proc"]] = {**told, "locals": {**before, **told["locals"]}}
        self.processes = {n: p for n, p in self.processes.items() if n < line["alive"]}

    def all(self):
        """All of it, as one that compares."""
        return json.loads(json.dumps([self.globals, sorted(self.channels.items()), sorted(self.processes.items())]))


def run_of(model, legs, most):
    """Each state of the run of these choices and the texts of the moves there, as `--json` tells them; legs are pairs of a number and of how many it was one."""
    with tempfile.NamedTemporaryFile("w", suffix=".choices") as file:
        file.write("".join("%d\n" % choice for choice, of in legs if of > 1))
        file.flush()
        done = subprocess.run([VIEW, "--json", "-u%d" % most, "--choices", file.name, model], capture_output=True, timeout=600, check=False)
    lines = [json.loads(line) for line in done.stdout.decode().splitlines()]
    state, states, texts = State(lines[0]), [], []
    for line in lines[1:]:
        states.append(state.all())
        if line["event"] == "step":
            texts.append(line.get("moves"))
            state.step(line)
            continue
        texts.append(line.get("moves", []))
        return states, texts, line
    return states, texts, {}


def models(folder, most):
    """So many files of models: the examples, and those of the rows of sessions, each once, written into a folder."""
    found, texts = sorted(glob.glob(os.path.join(TOP, "examples", "*.pml"))), set()
    for row in all_rows():
        if len(found) >= most:
            break
        if row.model in texts or row.output.startswith("refused"):
            continue
        texts.add(row.model)
        path = os.path.join(folder, "m%d.pml" % len(found))
        with open(path, "w", encoding="latin-1", newline="") as file:
            file.write(row.model)
        found.append(path)
    return found
