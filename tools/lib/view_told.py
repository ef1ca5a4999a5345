"""What lines of JSON have beside the steps: moves as objects, where a state came up before, what led to an invalid end. It is a second reading of docs/VIEW.md,
made of the other keys of the lines, and uses nothing of the programs."""
import re
from lib.view_again import move_text

LATER = ("choices", "same_as", "claim", "cycle", "past", "reads", "about")
OWN = ("proc", "name", "line", "text", "does", "chan", "message")


def earlier(line):
    """A line with the keys that it had before: what stands at its end is taken away."""
    return {key: value for key, value in line.items() if key not in LATER}


def wrong_choices(line, state, effect):
    """What is wrong in the choices of a line, of this state: each is a move of the list, and its effect is that of its other keys."""
    moves, choices = line.get("moves"), line.get("choices")
    if moves is None or choices is None:
        return "" if moves is None and choices is None else "moves without choices, or choices without moves"
    if [move_text(choice) for choice in choices] != moves:
        return "the choices are not the moves in their order: %s" % choices
    for choice in choices:
        if choice.get("effect", "") != effect(choice, state).lstrip(" "):
            return "another effect: %s" % choice
        if ("next" in choice) == (choice["does"] == "end") or "next" not in choice.get("to", choice) and "to" in choice:
            return "without the line behind it: %s" % choice
    if "choice" in line and any(choices[line["choice"] - 1].get(key) != line.get(key) for key in OWN):
        return "the choice that was taken is another than the step: %s" % choices
    return ""


def wrong_next(line, state):
    """What is wrong in the line at which a process is said to stand behind a step; this is the state behind it."""
    if "choices" not in line:
        return ""
    taken = line["choices"][line["choice"] - 1]
    for one in (taken, taken.get("to")):
        if one and "next" in one and state.processes[one["proc"]]["line"] != one["next"]:
            return "another line behind it: %s, %s" % (one, state.processes[one["proc"]])
    return ""


class History:
    """Who used each channel last, and who set each variable, on the steps so far."""

    def __init__(self, start):
        self.sent, self.took, self.writer, self.alive, self.open = {}, {}, {}, len(start["processes"]), len(start["channels"])
        self.names = {process["proc"]: process["name"] for process in start["processes"]}

    def step(self, line):
        number, does, chan = line["step"], line["does"], line.get("chan")
        if does in ("send", "pass"):
            self.sent[chan] = {"proc": line["proc"], "step": number, "lives": True}
        if does in ("receive", "pass"):
            self.took[chan] = {"proc": line["to"]["proc"] if does == "pass" else line["proc"], "step": number, "lives": True}
        for name, value in line.get("globals", {}).items():
            self.writer[name] = {"proc": line["to"]["proc"] if does == "pass" else line["proc"], "value": value, "step": number, "lives": True}
        for process in line.get("processes", []):
            owner = process["proc"]
            self.names[owner] = process["name"]
            for name, value in process["locals"].items() if owner < self.alive else ():
                self.writer[owner, name] = {"proc": owner, "value": value, "step": number, "lives": True}
        self.alive = line["alive"]
        self.writer = {cell: last for cell, last in self.writer.items() if isinstance(cell, str) or cell[0] < self.alive}
        for uses in self.sent, self.took:
            for gone in [chan for chan in uses if chan > line["open"]]:
                del uses[gone]
        for uses in self.sent, self.took, self.writer:
            for one in uses.values():
                one["lives"] = one["lives"] and one["proc"] < self.alive

    def name_of(self, cell):
        """What a cell is called: x, or P[2].x of process 2."""
        return cell if isinstance(cell, str) else "%s[%d].%s" % (self.names[cell[0]], *cell)

    def awaited(self, process, wait, state):
        """Whom a process waits for that waits for this alone."""
        younger = re.match(r"it can end when proc (\d+) ", wait["words"])
        if younger:
            return int(younger[1])
        if wait["because"] == "false":
            globals_read = [cell for cell in cells_read(wait, process, state) if isinstance(cell, str)]
            found = {self.writer[name]["proc"] for name in globals_read if name in self.writer and self.writer[name]["lives"] and self.writer[name]["proc"] != process}
            return found.pop() if len(found) == 1 else None
        chan = waited_at(wait, state)
        others = [use for use in (self.sent.get(chan), self.took.get(chan)) if use and use["lives"] and use["proc"] != process]
        return sorted(others, key=lambda use: use["step"])[-1]["proc"] if others else None

    def wrong(self, past, state):
        """What is wrong in what led to the end of a run, which is this state."""
        processes = [state.processes[number] for number in sorted(state.processes)]
        chans, cells, awaits = [], [], []
        for process in processes:
            for wait in process["waits"]:
                chan = waited_at(wait, state)
                chans += [chan] if chan and chan not in chans else []
                cells += [cell for cell in cells_read(wait, process["proc"], state) if cell not in cells]
            awaits.append(self.awaited(process["proc"], process["waits"][0], state) if len(process["waits"]) == 1 else None)
        used = [{"chan": chan, "name": state.channels[chan]["name"], **({"sent": self.sent[chan]} if chan in self.sent else {}), **({"took": self.took[chan]} if chan in self.took else {})} for chan in chans]
        told = [{key: value for key, value in one.items() if key != "words"} for one in past["used"]]
        if told != used:
            return "used: %s, and not %s" % (told, used)
        told = [{key: value for key, value in one.items() if key != "words"} for one in past["set"]]
        if told != [{"name": self.name_of(cell), **self.writer.get(cell, {})} for cell in cells]:
            return "set: %s, of %s" % (told, cells)
        rounds = [around for around in (round_from(awaits, first) for first in range(len(awaits))) if around]
        return "" if past.get("round") == (rounds[0] if rounds else None) else "round: %s, and not %s" % (past.get("round"), rounds)


def cells_read(wait, process, state):
    """The cells in the words of a false condition: names of globals, and of the process's own variables, which hide them, each with its process."""
    if wait["because"] != "false":
        return []
    own = state.processes[process]["locals"]
    named = [cell.split(" = ")[0] for cell in wait["words"][len("false: "):].split(", ")] if wait["words"].startswith("false: ") else []
    return [(process, name) if name in own else name for name in named if name in own or name in state.globals]


def round_from(awaits, first):
    """The processes that lead from one to itself, or None."""
    around, at = [first], awaits[first]
    while at is not None and at != first and len(around) <= len(awaits):
        around.append(at)
        at = awaits[at] if at < len(awaits) else None
    return around if at == first and len(around) <= len(awaits) else None


def waited_at(wait, state):
    """The channel that a process waits at, by the words for it."""
    found = re.match(r"(.*) is (?:empty|full)$|the oldest message of (.*?) is \(|no message of (.*?) is \(|no process receives \(.*\) from (.*)$|no process sends \(.*\) to (.*)$", wait["words"])
    if not found or wait["text"] is None:
        return None
    name = next(word for word in found.groups() if word is not None)
    return next((chan for chan, channel in state.channels.items() if (channel["name"] or "chan %d" % chan) == name), None)
