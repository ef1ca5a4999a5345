"""Drives spinview until no process can move, and says why: python3 examples/deadlock.py bin/spinview examples/philosophers.pml"""
import json
import subprocess
import sys

run = subprocess.Popen([sys.argv[1], "--serve", sys.argv[2]], stdin=subprocess.PIPE, stdout=subprocess.PIPE, text=True)
seen = set()


def answer():
    """The lines of an answer, of which the last is a question or an error."""
    lines = [json.loads(run.stdout.readline())]
    while lines[-1]["event"] not in ("question", "error"):
        lines.append(json.loads(run.stdout.readline()))
    return lines


def ask(**request):
    print(json.dumps(request), file=run.stdin, flush=True)
    return answer()


def search():
    """Tries each choice, the first first, and goes back from states that were seen."""
    state, *_, question = ask(state=True)
    seen.add(json.dumps(state))
    for number in range(len(question["choices"])):
        if any(line.get("end") == "invalid" for line in ask(take=number + 1)):
            return True
        if json.dumps(ask(state=True)[0]) not in seen and search():
            return True
        ask(back=1)
    return False


answer()
if search():
    print("no process can move behind %d steps; choices %s" % (ask(moves=True)[-1]["at"], ask(record=True)[0]["choices"]))
    for process in ask(why=True)[0]["processes"]:
        print(process["name"], process["proc"], "waits:", "; ".join(wait["words"] for wait in process["waits"]))
