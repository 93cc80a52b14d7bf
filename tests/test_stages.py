"""What each state made of its data, stage by stage: each stage is what the definition's member makes of the one before it."""
import glob
import json
import os
import re
import tempfile

from program import TOP, ProgramTest, answered, noted, run_program, without_why

ROW = re.compile(r"(\d+:)?\d\d:\d\d\.\d{3} /")
STAGE = re.compile(r" {17,}(\w+) +(error )?(.*)")
NAMES = "input InputPath Parameters ItemsPath ItemSelector Choices delay result ResultSelector ResultPath OutputPath output Catch".split()


def machine(states, start="A", **members):
    return json.dumps({"StartAt": start, "States": states, **members})


class StagesTest(ProgramTest):
    def blocks(self, definition, given="{}", mocks="{}", chosen="M"):
        """The blocks of a run: each the line of a step, and its stages: names with values, an error as a list of one object."""
        with tempfile.TemporaryDirectory(prefix="asl-test-") as room:
            words = []
            for name, text in [("definition", definition), ("mocks", mocks), ("input", given)]:
                words.append(os.path.join(room, name))
                with open(words[-1], "w", encoding="utf-8") as file:
                    file.write(text)
            words[2:2] = [chosen]
            ran = run_program("run", *words, "--format", "data")
            tree = run_program("run", *words, "--format", "tree")
            text = run_program("run", *words)
        self.assertEqual((without_why(ran.stderr), ran.returncode), (noted(text.stdout, chosen), tree.returncode))
        lines = ran.stdout.splitlines()
        self.assertEqual(lines[0], f"input {given}")
        self.assertEqual(lines[-1], tree.stdout.splitlines()[-1])
        rows = [line for line in lines[1:-1] if ROW.match(line)]
        self.assertEqual(rows, [line for line in tree.stdout.splitlines() if ROW.match(line)])
        return self.parsed(lines[1:-1])

    def parsed(self, lines):
        blocks = []
        for line in lines:
            if ROW.match(line):
                blocks.append((line, []))
                continue
            name, error, value = STAGE.fullmatch(line).groups()
            self.assertIn(name, NAMES)
            value = json.loads(value)
            blocks[-1][1].append((name, [value] if error else value))
        return blocks

    def stages(self, state, given="{}", mocks="{}", chosen="M", **states):
        """The stages of each step of a machine that begins with this state."""
        return [stages for _, stages in self.blocks(machine({"A": state, **states}), given, mocks, chosen)]

    def test_all_stages_of_a_task(self):
        task = {
            "Type": "Task",
            "Resource": "r",
            "InputPath": "$.a",
            "Parameters": {"x.$": "$.b"},
            "ResultSelector": {"y.$": "$.c"},
            "ResultPath": "$.d",
            "OutputPath": "$.d.y",
            "End": True,
        }
        told = self.stages({"Type": "Pass", "Next": "W"}, '{"a":{"b":1}}', answered('"0":{"Return":{"c":2}}'), "M#c", W=task)
        self.assertEqual(told[0], [("input", {"a": {"b": 1}})])
        self.assertEqual(
            told[1],
            [
                ("input", {"a": {"b": 1}}),
                ("InputPath", {"b": 1}),
                ("Parameters", {"x": 1}),
                ("result", {"c": 2}),
                ("ResultSelector", {"y": 2}),
                ("ResultPath", {"a": {"b": 1}, "d": {"y": 2}}),
                ("OutputPath", 2),
            ],
        )

    def test_a_stage_that_changes_nothing_has_no_line(self):
        same = {"Type": "Pass", "InputPath": "$", "Parameters": {"a": 1}, "ResultPath": "$", "OutputPath": "$", "End": True}
        self.assertEqual(self.stages(same, '{"a":1}'), [[("input", {"a": 1})]])
        self.assertEqual(self.stages(same, '{"a":1.0}'), [[("input", {"a": 1.0}), ("Parameters", {"a": 1})]])
        back = {"Type": "Pass", "Result": 7, "ResultPath": None, "End": True}
        self.assertEqual(self.stages(back, "[]"), [[("input", []), ("result", 7), ("ResultPath", [])]])
        self.assertEqual(self.stages({"Type": "Succeed", "InputPath": None}, "1"), [[("input", 1), ("InputPath", {})]])

    def test_a_stage_that_fails(self):
        none = [{"Error": "States.Runtime", "Cause": "InputPath: no value"}]
        for state in [{"Type": "Pass", "End": True}, {"Type": "Succeed"}, {"Type": "Wait", "Seconds": 1, "End": True}]:
            with self.subTest(state=state):
                self.assertEqual(self.stages({**state, "InputPath": "$.no"}), [[("input", {}), ("InputPath", none)]])
        self.assertEqual(
            self.stages({"Type": "Pass", "Parameters": {"a.$": "$.no"}, "End": True}),
            [[("input", {}), ("Parameters", [{"Error": "States.ParameterPathFailure", "Cause": "a.$: no value"}])]],
        )
        self.assertEqual(
            self.stages({"Type": "Pass", "Result": 2, "ResultPath": "$.a.b", "End": True}, '{"a":1}'),
            [[("input", {"a": 1}), ("result", 2), ("ResultPath", [{"Error": "States.ResultPathMatchFailure", "Cause": "ResultPath: no place"}])]],
        )
        self.assertEqual(
            self.stages({"Type": "Pass", "OutputPath": "$.no", "End": True}),
            [[("input", {}), ("OutputPath", [{"Error": "States.Runtime", "Cause": "OutputPath: no value"}])]],
        )

    def test_answers_that_are_errors(self):
        task = {
            "Type": "Task",
            "Resource": "r",
            "Retry": [{"ErrorEquals": ["E"], "MaxAttempts": 1}],
            "Catch": [{"ErrorEquals": ["E"], "ResultPath": "$.e", "Next": "B"}],
            "OutputPath": "$.no",
            "End": True,
        }
        error = [{"Error": "E", "Cause": "c"}]
        mocks = answered('"0-1":{"Throw":{"Error":"E","Cause":"c"}}')
        told = self.blocks(machine({"W": task, "B": {"Type": "Succeed"}}, "W"), '{"a":1}', mocks, "M#c")
        self.assertEqual(
            [stages for _, stages in told],
            [
                [("input", {"a": 1}), ("result", error)],
                [("input", {"a": 1}), ("result", error), ("Catch", {"a": 1, "e": error[0]})],
                [("input", {"a": 1, "e": error[0]})],
            ],
        )
        self.assertIn("retrier 0, use 1 of 1", told[0][0])
        self.assertIn("catcher 0 -> B", told[1][0])
        task["Catch"][0]["ResultPath"] = "$.a.b"
        told = self.blocks(machine({"W": task, "B": {"Type": "Succeed"}}, "W"), '{"a":1}', mocks, "M#c")
        self.assertEqual(told[1][1][-1], ("Catch", [{"Error": "States.ResultPathMatchFailure", "Cause": "ResultPath: no place"}]))
        unanswered = self.blocks(machine({"W": {"Type": "Task", "Resource": "r", "End": True}}, "W"))
        self.assertEqual(unanswered[0][1][-1], ("result", [{"Error": "States.Runtime", "Cause": "no mocked answer"}]))

    def test_choices(self):
        choice = {"Type": "Choice", "InputPath": "$.a", "OutputPath": "$.b", "Choices": [{"Variable": "$.b", "NumericEquals": 1, "Next": "B"}]}
        self.assertEqual(
            self.stages(choice, '{"a":{"b":1}}', B={"Type": "Succeed"}),
            [[("input", {"a": {"b": 1}}), ("InputPath", {"b": 1}), ("OutputPath", 1)], [("input", 1)]],
        )
        told = self.stages(choice, '{"a":{"b":2}}', B={"Type": "Succeed"})
        self.assertEqual(told[0][-1], ("Choices", [{"Error": "States.NoChoiceMatched", "Cause": "no rule holds"}]))
        told = self.stages(choice, '{"a":{}}', B={"Type": "Succeed"})
        self.assertEqual(told[0][-1], ("Choices", [{"Error": "States.Runtime", "Cause": "$.b: no value"}]))

    def test_waits_and_fails(self):
        wait = {"Type": "Wait", "InputPath": "$.a", "SecondsPath": "$.s", "OutputPath": "$.s", "Next": "B"}
        told = self.stages(wait, '{"a":{"s":1}}', B={"Type": "Fail", "ErrorPath": "$.no"})
        self.assertEqual(
            told,
            [
                [("input", {"a": {"s": 1}}), ("InputPath", {"s": 1})],
                [("input", {"a": {"s": 1}}), ("InputPath", {"s": 1}), ("OutputPath", 1)],
                [("input", 1), ("result", [{"Error": "States.Runtime", "Cause": "ErrorPath: no value"}])],
            ],
        )
        told = self.stages(wait, '{"a":{"s":"x"}}', B={"Type": "Succeed"})
        self.assertEqual(told[0][-1], ("delay", [{"Error": "States.Runtime", "Cause": "SecondsPath: no value"}]))

    def test_branches(self):
        parallel = {
            "Type": "Parallel",
            "Parameters": {"p": 1},
            "Branches": [
                {"StartAt": "P", "States": {"P": {"Type": "Pass", "End": True}}},
                {"StartAt": "Q", "States": {"Q": {"Type": "Pass", "Result": 2, "End": True}}},
            ],
            "ResultSelector": {"second.$": "$[1]"},
            "ResultPath": "$.r",
            "End": True,
        }
        self.assertEqual(
            self.stages(parallel),
            [
                [("input", {}), ("Parameters", {"p": 1})],
                [("input", {"p": 1})],
                [("input", {"p": 1}), ("result", 2)],
                [("input", {}), ("result", [{"p": 1}, 2]), ("ResultSelector", {"second": 2}), ("ResultPath", {"r": {"second": 2}})],
            ],
        )

    def test_a_branch_that_fails(self):
        parallel = {
            "Type": "Parallel",
            "Branches": [{"StartAt": "F", "States": {"F": {"Type": "Fail", "Error": "E"}}}],
            "Catch": [{"ErrorEquals": ["States.ALL"], "ResultPath": None, "Next": "B"}],
            "End": True,
        }
        told = self.stages(parallel, "1", B={"Type": "Succeed"})
        failed = [("input", 1), ("result", [{"Error": "E"}])]
        self.assertEqual(told, [[("input", 1)], failed, [*failed, ("Catch", 1)], [("input", 1)]])

    def test_maps(self):
        inner = {"StartAt": "P", "States": {"P": {"Type": "Pass", "End": True}}}
        over = {
            "Type": "Map",
            "InputPath": "$.a",
            "ItemsPath": "$.l",
            "ItemSelector": {"i.$": "$$.Map.Item.Index", "v.$": "$$.Map.Item.Value", "k.$": "$.k"},
            "ItemProcessor": inner,
            "ResultPath": "$.a",
            "End": True,
        }
        inputs = [{"i": 0, "v": "x", "k": 7}, {"i": 1, "v": "y", "k": 7}]
        given = {"a": {"k": 7, "l": ["x", "y"]}}
        told = self.stages(over, json.dumps(given, separators=(",", ":")))
        self.assertEqual(told[0], [("input", given), ("InputPath", given["a"]), ("ItemsPath", ["x", "y"]), ("ItemSelector", inputs)])
        self.assertEqual(told[1:3], [[("input", inputs[0])], [("input", inputs[1])]])
        self.assertEqual(told[3], [("input", given), ("result", inputs), ("ResultPath", {"a": inputs})])
        older = {key: value for key, value in over.items() if not key.startswith("Item")}
        told = self.stages({**older, "ItemsPath": "$.l", "Parameters": over["ItemSelector"], "Iterator": inner}, json.dumps(given, separators=(",", ":")))
        self.assertEqual(told[0][-1], ("ItemSelector", inputs))
        told = self.stages({**over, "ItemsPath": "$.k"}, json.dumps(given, separators=(",", ":")))
        self.assertEqual(told[0][-1], ("ItemsPath", [{"Error": "States.Runtime", "Cause": "ItemsPath: no value"}]))
        told = self.stages({**over, "ItemSelector": {"n.$": "$.no"}}, json.dumps(given, separators=(",", ":")))
        self.assertEqual(told[0][-1], ("ItemSelector", [{"Error": "States.ParameterPathFailure", "Cause": "n.$: no value"}]))
        self.assertEqual(self.stages({"Type": "Map", "ItemProcessor": inner, "End": True}, "[1]"), [[("input", [1])], [("input", 1)], [("input", [1])]])

    def test_the_limit_of_an_output(self):
        double = {"Type": "Pass", "Parameters": {"a.$": "$", "b.$": "$"}, "End": True}
        told = self.stages(double, json.dumps("x" * 140_000))
        self.assertEqual(told[0][-1], ("output", [{"Error": "States.DataLimitExceeded", "Cause": "data limit"}]))

    def test_values_are_whole_and_show(self):
        told = self.stages({"Type": "Succeed"}, json.dumps("y" * 1000))
        self.assertEqual(told, [[("input", "y" * 1000)]])
        with tempfile.TemporaryDirectory(prefix="asl-test-") as room:
            paths = []
            for name, text in [("definition", machine({"A": {"Type": "Succeed"}})), ("mocks", "{}"), ("input", '"\u202e\u2028é"')]:
                paths.append(os.path.join(room, name))
                with open(paths[-1], "w", encoding="utf-8") as file:
                    file.write(text)
            ran = run_program("run", paths[0], paths[1], "M", paths[2], "--format", "data")
        self.assertEqual(ran.stdout.split("\n")[2], " " * 17 + 'input          "\\u202e\\u2028é"')

    def test_the_examples(self):
        """The last stage of a state that is left is what its branch goes on with."""
        count = 0
        for stored in sorted(glob.glob(f"{TOP}/examples/*/*.data.txt")):
            with open(stored, encoding="utf-8") as file:
                lines = file.read().splitlines()
            last = {}
            for row, stages in self.parsed([line for line in lines[1:-1]]):
                place = row.split(" ")[1]
                if stages and place in last:
                    self.assertEqual(stages[0], ("input", last.pop(place)), (stored, row))
                if " -> " in row:
                    last[place] = stages[-1][1]
                count += len(stages)
        self.assertGreater(count, 300)
