"""Runs of the built program, for the tests beside this file."""
import json
import os
import re
import subprocess
import tempfile
import unittest

TOP = os.path.dirname(os.path.dirname(os.path.realpath(__file__)))
PROGRAM = f"{TOP}/crates/asl/out/asl"

MIDNIGHT = "2024-01-01T00:00:00Z"


def steps(places, moment=MIDNIGHT):
    """The lines of steps at these places, all at one moment."""
    return "".join(f"{place} {moment}\n" for place in places)


def answered(answers):
    """A mock file of the machine M, in whose test case c the Task W has these answers."""
    return '{"StateMachines":{"M":{"TestCases":{"c":{"W":"a"}}}},"MockedResponses":{"a":{%s}}}' % answers


def run_program(*words, seconds=60):
    """What the program does for a command line. It has so many seconds."""
    return subprocess.run([PROGRAM, *words], stdin=subprocess.DEVNULL, capture_output=True, encoding="utf-8", timeout=seconds)


# What may stand behind the line of a fault: lines for a person, each with the name of a file in front.
MENDING = r"(?:[^\n]+: error[^\n]*\n)*"


def without_mending(told):
    """What is told of a refusal, without the lines that stand behind a fault."""
    return re.sub(rf"\A(fault: [^\n]+\n){MENDING}\Z", r"\1", told)


NO_ANSWER = '{"Error":"States.Runtime","Cause":"no mocked answer"}'
EVENT = re.compile(r'(\d+) (\d+) \S+Z \S+ (\w+) ("(?:[^"\\]|\\.)*") (.*)')
HANDS_UP = ("ExecutionFailed", "ParallelStateFailed", "MapStateFailed", "MapIterationFailed")


def unended(printed, steps):
    """What is told of a run that isn't over: that its history is full, or that it has taken so many steps, where no file names them."""
    *events, last = printed.splitlines()
    if last != "status RUNNING":
        return ""
    if sum(EVENT.fullmatch(line) is not None for line in events) > 24_992:
        return "note: the execution still runs, and takes no more steps: its history is full\n"
    return "" if steps is not None else "note: the execution still runs: 10000 steps were taken, and --max-steps takes more\n"


# The note on a state that couldn't make its data; test_why has its words.
WHY = re.compile(r'note: "(?:[^"\\\n]|\\.)*" at (?:/|(?:/\d+)+): (?:[A-Z][A-Za-z]*Path: |Parameters/|ItemSelector/|ResultSelector/|\$)[^\n]+\n')


def without_why(told):
    """What is told of a run, without the note on the state that couldn't make its data."""
    return WHY.sub("", told)


def noted(text, chosen):
    """What is told on standard error of a run that prints this text, where no mock throws what a Task without an answer fails with: which answer it lacked."""
    events = [match.groups() for match in map(EVENT.fullmatch, text.splitlines()) if match]
    if text.splitlines()[-1] != f"status FAILED {NO_ANSWER}":
        return ""
    at = len(events) - 1
    while events[at][2] in HANDS_UP:
        at = int(events[at][1]) - 1
    if events[at][2] != "TaskFailed" or events[at][4] != NO_ANSWER:
        return ""
    name = events[at][3]
    number = sum(event[2:4] == ("TaskScheduled", name) for event in events[:at]) - 1
    case = chosen.partition("#")[2]
    has = f"case {json.dumps(case, ensure_ascii=False)} has" if case else "no case is chosen, so there is"
    return f"note: {has} no answer {number} of the Task {name}\n"


class ProgramTest(unittest.TestCase):
    maxDiff = None

    def on_texts(self, command, definition, mocks, chosen, given, last=None, before=()):
        """What a command does for the texts of an execution and a last text, if it has one. Before the file of that one stand these words."""
        with tempfile.TemporaryDirectory(prefix="asl-test-") as room:

            def file(name, text):
                path = os.path.join(room, name)
                with open(path, "wb") as out:
                    out.write(text if isinstance(text, bytes) else text.encode())
                return path

            words = [command, file("definition", definition), file("mocks", mocks), chosen, file("input", given)]
            return run_program(*words, *([*before, file("last", last)] if last is not None else []))

    def run_texts(self, definition, mocks, chosen, given, steps):
        """What the program does for the texts of a run; without a text of steps it drives the run itself."""
        return self.on_texts("run", definition, mocks, chosen, given, steps, ["--steps"])

    def suite_texts(self, definition, mocks, expectations, *words):
        """What the command test does for the texts of a suite."""
        with tempfile.TemporaryDirectory(prefix="asl-test-") as room:
            names = []
            for name, text in [("definition.json", definition), ("mocks.json", mocks), ("tests.json", expectations)]:
                names.append(os.path.join(room, name))
                with open(names[-1], "w", encoding="utf-8") as out:
                    out.write(text)
            return run_program("test", *names, *words)

    def told(self, definition, given="{}", steps=None, mocks="{}", chosen="M"):
        """What a run prints. Its status is 0 just if the execution succeeds, and it is told which answer lacked, if one did."""
        ran = self.run_texts(definition, mocks, chosen, given, steps)
        last = ran.stdout.splitlines()[-1]
        self.assertEqual(without_why(ran.stderr), noted(ran.stdout, chosen) + unended(ran.stdout, steps))
        self.assertEqual(ran.returncode, 0 if last.startswith("status SUCCEEDED ") else 1, last)
        return ran.stdout

    def refused(self, definition, mocks, chosen, given, steps):
        """The line of the fault for which a run is refused. Nothing else is printed."""
        ran = self.run_texts(definition, mocks, chosen, given, steps)
        self.assertEqual((ran.returncode, ran.stdout), (2, ""))
        told = without_mending(ran.stderr)
        self.assertRegex(told, r"\Afault: [^\n]+\n\Z")
        return told[len("fault: ") : -1]

    def assert_ends(self, text, lines, status):
        """The text has so many lines, those of the steps, the events and the status, and ends with this one."""
        told = text.splitlines()
        self.assertEqual((len(told), told[-1]), (lines, status), text)
