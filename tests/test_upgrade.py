"""Upgraded definitions: each state of type Map in the newer spelling, nothing else changed, and runs that print the same text."""
import glob
import json
import os
import random
import tempfile
from concurrent.futures import ThreadPoolExecutor

from definitions import answer
from members import (
    CHOICE_PARTS,
    FAIL_PARTS,
    ITEM_PROCESSOR_PARTS,
    MACHINE_PARTS,
    MAP_PARTS,
    PARALLEL_PARTS,
    PASS_PARTS,
    SUCCEED_PARTS,
    TASK_PARTS,
    WAIT_PARTS,
)
from nesting import nested
from program import TOP, ProgramTest, run_program, steps

# The worked example in both spellings.
OLDER = (
    '{"StartAt":"M","States":{"M":{"Type":"Map","Parameters":{"v.$":"$$.Map.Item.Value"},"Iterator":{"StartAt":"P",'
    '"States":{"P":{"Type":"Pass","Parameters":{"k":1},"End":true}}},"End":true}}}'
)
NEWER = (
    '{"StartAt":"M","States":{"M":{"Type":"Map","ItemSelector":{"v.$":"$$.Map.Item.Value"},"ItemProcessor":{"StartAt":"P",'
    '"States":{"P":{"Type":"Pass","Parameters":{"k":1},"End":true}}},"End":true}}}'
)

# A Map in a Map in a Parallel, with both spellings mixed, and states whose `Parameters` keep their name; and what it is upgraded to.
MIXED = (
    '{"StartAt":"L","States":{"L":{"Type":"Parallel","Parameters":{"l":[[1,2],[3]]},"Branches":[{"StartAt":"A",'
    '"States":{"A":{"Type":"Task","Resource":"r","Parameters":{"Iterator":2,"Parameters":{"Type":"Map","Iterator":3}},"End":true}}},'
    '{"StartAt":"M","States":{"M":{"Type":"Map","ItemsPath":"$.l","ItemSelector":{"Parameters.$":"$$.Map.Item.Value"},'
    '"Iterator":{"StartAt":"N","States":{"N":{"Type":"Map","ItemsPath":"$.Parameters","Parameters":{"n.$":"$$.Map.Item.Value"},'
    '"ItemProcessor":{"ProcessorConfig":{"Mode":"INLINE"},"StartAt":"F","States":{"F":{"Type":"Pass","Parameters":{"n.$":"$.n"},"End":true}'
    '}},"End":true}}},"End":true}}}],"End":true}}}'
)
MIXED_NEWER = (
    '{"StartAt":"L","States":{"L":{"Type":"Parallel","Parameters":{"l":[[1,2],[3]]},"Branches":[{"StartAt":"A",'
    '"States":{"A":{"Type":"Task","Resource":"r","Parameters":{"Iterator":2,"Parameters":{"Type":"Map","Iterator":3}},"End":true}}},'
    '{"StartAt":"M","States":{"M":{"Type":"Map","ItemsPath":"$.l","ItemSelector":{"Parameters.$":"$$.Map.Item.Value"},'
    '"ItemProcessor":{"StartAt":"N","States":{"N":{"Type":"Map","ItemsPath":"$.Parameters","ItemSelector":{"n.$":"$$.Map.Item.Value"},'
    '"ItemProcessor":{"ProcessorConfig":{"Mode":"INLINE"},"StartAt":"F","States":{"F":{"Type":"Pass","Parameters":{"n.$":"$.n"},"End":true}'
    '}},"End":true}}},"End":true}}}],"End":true}}}'
)

# The members of states of each type, and how many machines are made of them.
STATE_PARTS = [PASS_PARTS, TASK_PARTS, CHOICE_PARTS, WAIT_PARTS, PARALLEL_PARTS, MAP_PARTS, MAP_PARTS, SUCCEED_PARTS, FAIL_PARTS]
MACHINES = 1000

# Members of which one is taken, and those of which at most one is. `Parameters` stand alone in states that aren't Maps.
EITHER = [("Next", "End"), ("Seconds", "SecondsPath", "Timestamp", "TimestampPath"), ("Iterator", "ItemProcessor")]
AT_MOST = [("Parameters", "ItemSelector"), ("TimeoutSeconds", "TimeoutSecondsPath"), ("HeartbeatSeconds", "HeartbeatSecondsPath"),
    ("Error", "ErrorPath"), ("Cause", "CausePath")]
ALWAYS = ["Type", "Resource", "Choices", "Branches", "StartAt", "States"]

# The input of a run of such a machine.
INPUT = '{"i":{"l":[1,{"l":[]}],"a":1},"l":[{"a":1,"l":[2]}],"a":0,"v":1,"s":1,"t":"2024-01-01T00:00:00Z"}'


class Spelled(str):
    """A number as it is spelled."""


def read(text):
    return json.loads(text, parse_int=Spelled, parse_float=Spelled)


def written(value):
    """A value that was read, as a JSON text."""
    if isinstance(value, Spelled):
        return str(value)
    if isinstance(value, dict):
        return "{%s}" % ",".join(f"{json.dumps(key)}:{written(inner)}" for key, inner in value.items())
    if isinstance(value, list):
        return "[%s]" % ",".join(map(written, value))
    return json.dumps(value)


def newer_machine(machine):
    """A machine in the newer spelling, as it is to be: the standard's names, in states of type Map alone."""
    return {key: {name: newer_state(state) for name, state in value.items()} if key == "States" else value for key, value in machine.items()}


def newer_state(state):
    if state["Type"] == "Parallel":
        return {key: [newer_machine(it) for it in value] if key == "Branches" else value for key, value in state.items()}
    if state["Type"] != "Map":
        return state
    names = {"Iterator": "ItemProcessor", "Parameters": "ItemSelector"}
    return {names.get(key, key): newer_machine(value) if key in ("Iterator", "ItemProcessor") else value for key, value in state.items()}


class Maker:
    """Makes machines from the tables of members. A state goes on to later ones alone, so that each run ends."""

    def __init__(self, seed):
        self.random, self.count = random.Random(seed), 0

    def machine(self, parts, depth):
        names = [f"S{self.count + number}" for number in range(self.random.randint(1, 3))]
        self.count += len(names)
        states = ",".join(f'"{name}":{{{self.members(self.random.choice(STATE_PARTS), names[number + 1 :], depth)}}}' for number, name in enumerate(names))
        given = {"StartAt": f'"{names[0]}"', "States": f"{{{states}}}"}
        return "{%s}" % self.chosen(parts, lambda name, kind, fit: given.get(name, fit))

    def members(self, parts, later, depth):
        """The members of a state, behind which these states come; where there is none, it ends."""

        def value(name, kind, fit):
            if kind == "Machine":
                return self.machine(ITEM_PROCESSOR_PARTS if name == "ItemProcessor" else MACHINE_PARTS, depth + 1)
            if kind == "Machines":
                return "[%s]" % ",".join(self.machine(MACHINE_PARTS, depth + 1) for _ in range(self.random.randint(1, 2)))
            return fit.replace('"A"', f'"{self.random.choice(later)}"') if later else fit

        # (a state that has machines inside, or that needs a later one)
        if (depth > 3 and parts in (PARALLEL_PARTS, MAP_PARTS)) or (not later and parts is CHOICE_PARTS):
            parts = PASS_PARTS
        return self.chosen(parts, value, left_out=("QueryLanguage",) if later else ("Next", "Catch"))

    def chosen(self, parts, value, left_out=()):
        """Some members of these parts, in the order of the table, each with its value."""
        rows = [row for part in parts for row in part.rows if row[0] not in left_out]
        taken = {name for name, _, _ in rows if name in ALWAYS or self.random.random() < 0.3}
        for group in EITHER + AT_MOST:
            there = [name for name, _, _ in rows if name in group and (group in EITHER or name in taken)]
            if there:
                taken = taken - set(group) | {self.random.choice(there)}
        return ",".join(f'"{name}":{value(name, kind, fit)}' for name, kind, fit in rows if name in taken)


def run_on(command, text, *words):
    """What the program does with a definition's text."""
    with tempfile.NamedTemporaryFile(prefix="asl-test-") as file:
        file.write(text.encode())
        file.flush()
        return run_program(command, file.name, *words)


def upgraded(text):
    """What `upgrade` prints of a definition without faults, but for the line feed."""
    ran = run_on("upgrade", text)
    if (ran.returncode, ran.stderr) != (0, "") or not ran.stdout.endswith("\n"):
        raise AssertionError(f"{text}\n  is answered {ran}")
    return ran.stdout[:-1]


class UpgradeTest(ProgramTest):
    def assert_upgraded(self, text):
        """A definition is upgraded to the canonical form of what it is to be; that is accepted, printed as it stands, and stays."""
        form = upgraded(text)
        self.assertEqual(form, answer(written(newer_machine(read(text)))))
        self.assertEqual(run_on("check", form).stdout, "ok\n", form)
        self.assertEqual(answer(form), form)
        self.assertEqual(upgraded(form), form)
        return form

    def test_the_worked_example(self):
        self.assertEqual(self.assert_upgraded(OLDER), NEWER)
        places = steps(["/", "/0", "/1", "/"])
        self.assertEqual(self.told(OLDER, "[1,2]", places), self.told(NEWER, "[1,2]", places))
        self.assertEqual(self.told(NEWER, "[1,2]", places).splitlines()[-1], 'status SUCCEEDED [{"k":1},{"k":1}]')

    def test_both_spellings_mixed_in_one_another(self):
        self.assertEqual(self.assert_upgraded(MIXED), MIXED_NEWER)
        mocks = '{"StateMachines":{"M":{"TestCases":{"c":{"A":"a"}}}},"MockedResponses":{"a":{"0":{"Return":0}}}}'
        for given in [None, steps(["/", "/1", "/1/1", "/0", "/1/0", "/1/1/0", "/1/0/1", "/1/0/0", "/1/0", "/1/1", "/1", "/"])]:
            ran = self.told(MIXED, "{}", given, mocks, "M#c")
            self.assertEqual(ran, self.told(MIXED_NEWER, "{}", given, mocks, "M#c"))
            self.assertEqual(ran.splitlines()[-1], 'status SUCCEEDED [0,[[{"n":1},{"n":2}],[{"n":3}]]]')

    def test_sixteen_machines_in_one_another(self):
        self.assertEqual(self.assert_upgraded(nested(16)), nested(16).replace("Iterator", "ItemProcessor"))

    def test_no_newer_name_without_a_map(self):
        for text in ['{"StartAt":"A","States":{"A":{"Type":"Pass","Parameters":{"Iterator":1.50},"Result":{"Type":"Map","Parameters":1},"End":true}}}']:
            self.assertEqual(self.assert_upgraded(text), text)

    def test_examples(self):
        """Each is upgraded, and its test cases run as before."""
        definitions = glob.glob(f"{TOP}/examples/*/definition.json")
        self.assertGreater(len(definitions), 9)
        changed = set()
        for definition in definitions:
            folder, name = os.path.dirname(definition), os.path.basename(os.path.dirname(definition))
            with open(definition, encoding="utf-8") as file:
                text = file.read()
            form = self.assert_upgraded(text)
            if form != answer(text):
                changed.add(name)
            for stored in glob.glob(f"{folder}/*.driven.txt") + glob.glob(f"{folder}/*.run.txt"):
                case, kind, _ = os.path.basename(stored).split(".")
                given = next(it for it in (f"{folder}/{case}.input.json", f"{folder}/input.json") if os.path.exists(it))
                more = ["--steps", f"{folder}/{case}.steps.txt"] if kind == "run" else []
                with open(stored, encoding="utf-8") as file:
                    self.assertEqual(run_on("run", form, f"{folder}/mocks.json", f"{name}#{case}", given, *more).stdout, file.read(), stored)
        self.assertEqual(changed, {"orders"})

    def test_machines_of_the_tables(self):
        """Each is upgraded, and runs as before."""
        with tempfile.TemporaryDirectory(prefix="asl-test-") as room:
            files = [os.path.join(room, name) for name in ("mocks", "input")]
            for path, text in zip(files, ["{}", INPUT]):
                with open(path, "w", encoding="utf-8") as out:
                    out.write(text)

            def tried(seed):
                text = Maker(seed).machine(MACHINE_PARTS, 0)
                form = self.assert_upgraded(text)
                before, after = (run_on("run", it, files[0], "M", files[1]) for it in (text, form))
                self.assertIn(before.returncode, (0, 1), text)
                self.assertEqual((before.stdout, before.returncode), (after.stdout, after.returncode), text)
                return form != answer(text), before.stdout

            with ThreadPoolExecutor(os.cpu_count()) as pool:
                changed, texts = zip(*pool.map(tried, range(MACHINES)))
        # The tables give enough that changes, and enough that runs through a Map.
        self.assertGreater(sum(changed), MACHINES // 4)
        self.assertGreater(sum("MapIterationStarted" in text for text in texts), MACHINES // 20)
