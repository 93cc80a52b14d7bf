"""The tree of a run: what happened at each state, in lines for a person."""
import json
import os
import tempfile

from program import ProgramTest, answered, noted, run_program, without_why


def machine(states, start="A", **members):
    return json.dumps({"StartAt": start, "States": states, **members})


def row(time, place, state, outcome, goes=""):
    """The line of a step."""
    head = f"{time} {place:<4} " + f"{'  ' * place.rstrip('/').count('/') + state:<30} "
    return head + (f"{outcome:<24} {goes}" if goes else outcome)


UNDER = " " * 17  # what stands before a line that belongs to that of a step at /


class TreeTest(ProgramTest):
    def tree(self, definition, given="{}", mocks="{}", chosen="M", steps=None):
        """The lines of the tree of a run, but the first and the last one."""
        with tempfile.TemporaryDirectory(prefix="asl-test-") as room:
            words = []
            for name, text in [("definition", definition), ("mocks", mocks), ("input", given), ("steps", steps)]:
                if text is not None:
                    words.append(os.path.join(room, name))
                    with open(words[-1], "w", encoding="utf-8") as file:
                        file.write(text)
            words[2:2] = [chosen]
            if steps is not None:
                words[4:4] = ["--steps"]
            ran = run_program("run", *words, "--format", "tree")
            usual = run_program("run", *words)
        self.assertEqual((without_why(ran.stderr), ran.returncode), (noted(usual.stdout, chosen), usual.returncode))
        lines = ran.stdout.split("\n")
        self.assertEqual(lines[0], f"input {given}")
        self.assertEqual(lines[-2:], [usual.stdout.split("\n")[-2], ""])
        return lines[1:-2]

    def changed(self, before, after):
        """The lines of the data that a state changed, which has this input and this output."""
        told = self.tree(machine({"A": {"Type": "Pass", "Result": after, "End": True}}), json.dumps(before, separators=(",", ":")))
        self.assertEqual(told[0], row("00:00.000", "/", "A  Pass", "passed", "end"))
        return [line.removeprefix(UNDER) for line in told[1:]]

    def test_changes(self):
        for before, after, wanted in [
            ({}, {}, []),
            ({"a": 1, "b": 2}, {"b": 2, "a": 1}, []),
            ({"a": 1}, {"a": 1, "b": {}}, ["+ /b {}"]),
            ({"a": 1, "b": [2]}, {"b": [2]}, ["- /a 1"]),
            ({"a": {"b": {"c": 1}}}, {"a": {"b": {"c": "1"}}}, ['~ /a/b/c 1 -> "1"']),
            ({"a/b": 1, "m~n": 2}, {"m~n": 3, "x": 4}, ["- /a~1b 1", "~ /m~0n 2 -> 3", "+ /x 4"]),
            ([1, 2, 3], [1, 5], ["~ /1 2 -> 5", "- /2 3"]),
            ([[1], {}], [[1, 2], {}, 3], ["+ /0/1 2", "+ /2 3"]),
            ({"a": []}, {"a": {}}, ["~ /a [] -> {}"]),
            ([], 7, ["~ [] -> 7"]),
            ({"": 1}, {"": 2}, ["~ / 1 -> 2"]),
            ({}, {"a": "x" * 58}, ["+ /a " + json.dumps("x" * 58)]),
            ({}, {"a": "x" * 59}, ['+ /a "' + "x" * 59 + ".."]),
            ({}, {"\u202ea": "\u200b"}, ['+ /\\u202ea "\\u200b"']),
        ]:
            with self.subTest(before=before, after=after):
                self.assertEqual(self.changed(before, after), wanted)

    def test_numbers_are_compared_by_their_spelling(self):
        told = self.tree(machine({"A": {"Type": "Pass", "Result": 1, "End": True}}), "1.0")
        self.assertEqual(told[1:], [UNDER + "~ 1.0 -> 1"])

    def test_names(self):
        for name, shown in [("a b", "a b"), ("é", "é"), ('a"b', '"a\\"b"'), ("a\nb", '"a\\nb"'), ("a\u202eb", '"a\\u202eb"'), ("a\x7f", '"a\\u007f"')]:
            with self.subTest(name=name):
                told = self.tree(machine({name: {"Type": "Succeed"}}, name))
                self.assertEqual(len(told), 1)
                self.assertEqual(told[0].split("  Succeed ")[0], f"00:00.000 /    {shown}")

    def test_errors(self):
        task = {
            "Type": "Task",
            "Resource": "r",
            "Retry": [{"ErrorEquals": ["X"]}, {"ErrorEquals": ["E"], "IntervalSeconds": 3600, "MaxAttempts": 1}],
            "Catch": [{"ErrorEquals": ["X"], "Next": "B"}, {"ErrorEquals": ["E"], "ResultPath": None, "Next": "B"}],
            "Next": "B",
        }
        mocks = answered('"0-1":{"Throw":{"Error":"E","Cause":"c"}}')
        told = self.tree(machine({"W": task, "B": {"Type": "Succeed"}}, "W"), "{}", mocks, "M#c")
        self.assertEqual(
            told,
            [
                row("00:00.000", "/", "W  Task 0", "failed E", "retrier 1, use 1 of 1: again at 1:00:00.000"),
                UNDER + 'cause "c"',
                row("1:00:00.000", "/", "W  Task 1", "failed E", "retrier 1 is used up, catcher 1 -> B"),
                UNDER + 'cause "c"',
                row("1:00:00.000", "/", "B  Succeed", "succeeded", "end"),
            ],
        )
        del task["Catch"]
        told = self.tree(machine({"W": task, "B": {"Type": "Succeed"}}, "W"), "{}", mocks, "M#c")
        self.assertEqual(told[2], row("1:00:00.000", "/", "W  Task 1", "failed E", "retrier 1 is used up, no catcher: the execution fails"))
        del task["Retry"]
        told = self.tree(machine({"W": task, "B": {"Type": "Succeed"}}, "W"), "{}", mocks, "M#c")
        self.assertEqual(told[0], row("00:00.000", "/", "W  Task 0", "failed E", "no retrier, no catcher: the execution fails"))

    def test_errors_of_data(self):
        """An error that no event tells is told too."""
        task = {"Type": "Task", "Resource": "r", "Parameters": {"a.$": "$.none"}, "Catch": [{"ErrorEquals": ["States.ALL"], "Next": "B"}], "End": True}
        told = self.tree(machine({"A": task, "B": {"Type": "Succeed"}}))
        self.assertIn(" failed States.ParameterPathFailure catcher 0 -> B", told[0])

    def test_branches(self):
        parallel = {
            "Type": "Parallel",
            "Branches": [
                {"StartAt": "S", "States": {"S": {"Type": "Wait", "Seconds": 1, "End": True}}},
                {"StartAt": "F", "States": {"F": {"Type": "Fail", "Error": "E"}}},
            ],
            "Catch": [{"ErrorEquals": ["States.ALL"], "ResultPath": "$.e", "Next": "B"}],
            "Next": "B",
        }
        told = self.tree(machine({"A": parallel, "B": {"Type": "Succeed"}}))
        self.assertEqual(
            told,
            [
                row("00:00.000", "/", "A  Parallel", "2 branches"),
                row("00:00.000", "/0", "S  Wait", "waits", "until 00:01.000"),
                row("00:00.000", "/1", "F  Fail", "failed E", "the branch fails"),
                row("00:00.000", "/0", "S", "stopped"),
                row("00:00.000", "/", "A  Parallel", "failed E", "catcher 0 -> B"),
                UNDER + '+ /e {"Error":"E"}',
                row("00:00.000", "/", "B  Succeed", "succeeded", "end"),
            ],
        )

    def test_maps_and_choices(self):
        inner = {"StartAt": "C", "States": {"C": {"Type": "Choice", "Choices": [{"Variable": "$", "NumericEquals": 1, "Next": "D"}],
            "Default": "D"}, "D": {"Type": "Succeed"}}}
        told = self.tree(machine({"A": {"Type": "Map", "ItemProcessor": inner, "MaxConcurrency": 1, "End": True}}), "[1,2]")
        self.assertEqual(
            told,
            [
                row("00:00.000", "/", "A  Map", "2 iterations"),
                row("00:00.000", "/0", "C  Choice", "rule 0", "-> D"),
                row("00:00.000", "/0", "D  Succeed", "succeeded", "end"),
                row("00:00.000", "/1", "C  Choice", "default", "-> D"),
                row("00:00.000", "/1", "D  Succeed", "succeeded", "end"),
                row("00:00.000", "/", "A  Map", "joined", "end"),
            ],
        )

    def test_time_limit(self):
        told = self.tree(machine({"A": {"Type": "Wait", "Seconds": 60, "End": True}}, TimeoutSeconds=30))
        self.assertEqual(told[-1], "00:30.000 /    timed out")

    def test_refused_steps(self):
        steps = "/0 2024-01-01T00:00:00Z\n/ 2024-01-01T00:00:00Z\n"
        told = self.tree(machine({"A": {"Type": "Pass", "End": True}}), steps=steps)
        self.assertEqual(told[0], "step /0 S2 NoSuchPlace")
        self.assertEqual(len(told), 2)
