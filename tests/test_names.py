"""Names of any characters in what is printed of them, by each command and in each format."""
import json
import os
import re
import tempfile
import unittest

from program import run_program, without_mending

# A line feed, controls, marks that turn the direction of what follows, and nearly as many characters of four bytes as a name may have.
# One of characters that show as nothing.
NAMES = ["line\nfeed", "esc\x1b[2J\x7f\x85", "left\u202egpj\u200f\u2066", "no\u115f\u3164\ufe0f\U000e0041\U000e01efthing", 79 * "\U0001f600"]
# What no text has, since JSON spells it as an escape; and what no fault and no finding has either.
CONTROL = re.compile("[\x00-\x09\x0b-\x1f]")
UNSHOWN = re.compile("[\x00-\x09\x0b-\x1f\x7f-\x9f\u061c\u200e\u200f\u202a-\u202e\u2066-\u2069\u115f\u3164\ufe00-\ufe0f\U000e0000-\U000e0fff]")


def definition(name):
    """A definition whose names and errors are all made of this one."""
    task = {"Type": "Task", "Resource": "r", "Catch": [{"ErrorEquals": [name], "Next": name + "f"}], "Next": name + "c"}
    rule = {"Variable": "$['%s']" % re.sub(r"[^a-z]", "", name), "IsPresent": True, "Next": name + "f"}
    choice = {"Type": "Choice", "Choices": [rule], "Default": name + "w"}
    states = {name: task, name + "f": {"Type": "Fail", "Error": name}, name + "c": choice, name + "w": {"Type": "Wait", "Seconds": 1, "End": True}}
    return {"StartAt": name, "States": states}


def mocks(name, answers=None):
    return {"StateMachines": {name: {"TestCases": {name: {name: name}}}}, "MockedResponses": {name: answers or {"0": {"Throw": {"Error": name}}}}}


def tests(name, **more):
    return [{"machine": name, "case": name, "input": {}, "status": "FAILED", **more}, {"machine": name, "case": "x" + name, "input": {}, "status": "FAILED"}]


class Names(unittest.TestCase):
    def setUp(self):
        room = tempfile.TemporaryDirectory(prefix="asl-test-")
        self.addCleanup(room.cleanup)
        self.room = room.name

    def file(self, name, value):
        """A file of a value, or of a text."""
        path = os.path.join(self.room, name)
        with open(path, "w", encoding="utf-8") as file:
            file.write(value if isinstance(value, str) else json.dumps(value, ensure_ascii=False))
        return path

    def lines_of(self, name):
        """Each command line that prints something of the name."""
        given = [self.file("definition", definition(name)), self.file("mocks", mocks(name)), f"{name}#{name}", self.file("input", {})]
        suite = ["test", *given[:2], self.file("tests", tests(name, visits={name: 7}))]
        spelled = json.dumps(name, ensure_ascii=False)[1:-1]
        script = self.file("script", f'break "{spelled}"\nstep / 1970-01-01T00:00:00Z\nshow /\n')
        lines = [[command, given[0]] for command in ("check", "print", "upgrade", "graph")]
        lines += [["graph", given[0], "--format", "dot"], ["mocks", given[0], name]]
        lines += [["lint", *given[:2], "--format", kind] for kind in ("text", "json", "sarif", "github", "gitlab")]
        lines += [["run", *given, "--format", kind] for kind in ("text", "json", "aws", "steps", "tree", "data")]
        lines += [["debug", *given, script], ["explore", *given], ["explore", *given, "--calls"]]
        lines += [suite, [*suite, "--coverage"], [*suite, "--format", "junit"], [*suite, "--format", "json"]]
        return lines

    def answers(self, name):
        """What is printed and told by each command line."""
        for words in self.lines_of(name):
            ran = run_program(*words)
            self.assertIn(ran.returncode, (0, 1), (words, ran.stderr))
            yield words, ran.stdout, ran.stderr

    def test_each_name_takes_one_line_and_no_control_is_printed(self):
        plain = [(out.count("\n"), err.count("\n")) for _, out, err in self.answers("plain")]
        for name in NAMES:
            for counts, (words, out, err) in zip(plain, self.answers(name)):
                what = (name, words[0], words[-1])
                self.assertEqual((CONTROL.findall(out), out.count("\n")), ([], counts[0]), what)
                self.assertEqual((CONTROL.findall(err), err.count("\n")), ([], counts[1]), what)

    def test_faults_and_findings_have_no_other_controls_and_no_marks_of_direction(self):
        for name in NAMES:
            good = definition(name)
            wrong = {"StartAt": name, "States": {name: {"Type": "Pass", "Next": name + "x"}}}
            given, case = [self.file("mocks", mocks(name)), f"{name}#{name}", self.file("input", {})], self.file("definition", good)
            faults = [
                ["check", self.file("wrong", wrong)],
                ["check", os.path.join(self.room, name)],
                ["run", case, self.file("gap", mocks(name, {"0": {name: 1}})), *given[1:]],
                ["run", case, given[0], name + "x#" + name, given[2]],
                ["run", case, given[0], name + "#x" + name, given[2]],
                ["test", case, given[0], self.file("bad", tests(name, visits={name: -1}))],
                ["debug", *[case, *given], self.file("script", "what " + name)],
                ["run", *[case, *given], "--steps", self.file("steps", "/ " + name)],
            ]
            for words in faults:
                ran = run_program(*words)
                self.assertEqual((ran.returncode, ran.stdout, without_mending(ran.stderr).count("\n")), (2, "", 1), (name, words[0], ran.stderr))
                self.assertEqual(UNSHOWN.findall(ran.stderr), [], (name, ran.stderr))
            for kind in ("text", "json", "sarif", "github", "gitlab"):
                found = run_program("lint", self.file("wrong", wrong), self.file("gap", mocks(name, {"0": {name: 1}})), "--format", kind)
                self.assertEqual((found.returncode, found.stderr), (1, ""), (name, kind))
                self.assertEqual(UNSHOWN.findall(found.stdout), [], (name, kind))

    def test_graphs_and_the_lines_of_tests_have_no_marks_of_direction(self):
        for name in NAMES:
            given = [self.file("definition", definition(name)), self.file("mocks", mocks(name)), self.file("tests", tests(name, visits={name: 7}))]
            for words in (["graph", given[0]], ["graph", given[0], "--format", "dot"], ["test", *given]):
                ran = run_program(*words)
                self.assertIn(ran.returncode, (0, 1), (words, ran.stderr))
                self.assertEqual(UNSHOWN.findall(ran.stdout), [], (name, words))


if __name__ == "__main__":
    unittest.main()
