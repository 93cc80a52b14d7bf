"""Errors put in: what is told of each plan is what a search of the mock file with its errors finds, no plan is missing, and each witness reproduces its outcome."""
from __future__ import annotations

import glob
import itertools
import json
import os
import re
import tempfile

from program import ProgramTest, run_program
from test_explore import ONE_TASK, example_cases, explored, parallel

# How often a Task is asked at most here, with the errors that are put in.
ASKED = 60
POINT = re.compile(r' ("(?:[^"\\]|\\.)*") (\d+) ("(?:[^"\\]|\\.)*") (once|always)')
FUNCTION = "arn:aws:lambda:us-east-1:123456789012:function:f"


def told(text):
    """What is told of plans: how many there are, and of each outcome, or of `endless` and `search cut`, the plans. Of each outcome it is told how many plans
    give it, and whether it is new: whether it comes only where an error is put in."""
    head, *parts = text.removesuffix("\n").split("\n\n")
    found = {}
    for part in parts:
        title, *lines = part.split("\n")
        count = lines.pop(0) if title.startswith("outcome ") else None
        found[title] = [plan(line) for line in lines]
        assert count in (None, f"plans {len(lines)}" + (" new" if () not in found[title] else "")), (title, count)
    assert head.startswith("plans "), head
    return int(head.removeprefix("plans ")), found


def plan(line):
    """The errors of a plan: the state, the number of the invocation, the error, and whether later invocations fail, too."""
    if line == "plan no errors":
        return ()
    points = POINT.findall(line)
    assert line == "plan" + "".join(" " + " ".join(it) for it in points), line
    return tuple((json.loads(state), int(number), json.loads(error), span == "always") for state, number, error, span in points)


def by_plan(found):
    """The outcomes of each plan."""
    outcomes = {}
    for number, (title, plans) in enumerate(found.items(), 1):
        assert title.startswith(f"outcome {number} "), title
        for it in plans:
            outcomes.setdefault(it, []).append(title.split(" ", 2)[2])
    return outcomes


# ---- JSON in which numbers keep their spelling

MARK = "\ue000"


def read(text):
    """The value of a JSON text; a number that isn't whole is a text with marks around it."""
    return json.loads(text, parse_float=lambda number: MARK + number + MARK)


def write(value):
    """The JSON text of such a value."""
    return re.sub(rf'"{MARK}([^{MARK}]*){MARK}"', r"\1", json.dumps(value, ensure_ascii=False))


# ---- the text of what is told as lines of JSON


def outcome_of(end):
    """An outcome as the text has it."""
    if end["status"] == "SUCCEEDED":
        assert list(end) == ["status", "output"], end
        return "SUCCEEDED " + write_compact(end["output"])
    names = {"error": "Error", "cause": "Cause"}
    assert end["status"] in ("FAILED", "TIMED_OUT") and [it for it in end if it not in names] == ["status"], end
    return f"{end['status']} {write_compact({names[it]: end[it] for it in end if it in names})}"


def write_compact(value):
    return re.sub(rf'"{MARK}([^{MARK}]*){MARK}"', r"\1", json.dumps(value, ensure_ascii=False, separators=(",", ":")))


def line_of(errors_):
    """The line of a plan."""
    words = [f"{write(it['state'])} {it['invocation']} {write(it['error'])} {'always' if it['always'] else 'once'}" for it in errors_]
    return " ".join(["plan", *(words or ["no errors"])]) + "\n"


def text_of(lines):
    """The text of a search by its lines of JSON: those of rules, then those of plans."""
    rows = [read(line) for line in lines.splitlines()]
    rules, plans = [it for it in rows if "rule" in it], [it for it in rows if "plan" in it]
    assert rows == [*rules, *plans]
    text = ""
    for rule in rules:
        broken = [it["plan"] for it in plans if rule["rule"] in it["broken"]]
        text += f"rule {rule['rule']} {rule['verdict']} {rule['text']}\n"
        if broken:
            text += f"plans {len(broken)}\n" + "".join(map(line_of, broken)) + "steps\n" + rule["steps"]
        text += "\n"
    text += f"plans {len(plans)}\n"
    found = {}
    for one in plans:
        for end in one["outcomes"]:
            found.setdefault(outcome_of(end), []).append(one["plan"])
    for number, (outcome, its) in enumerate(found.items(), 1):
        text += f"\noutcome {number} {outcome}\nplans {len(its)}{'' if [] in its else ' new'}\n" + "".join(map(line_of, its))
    for title, its in [("endless", [it["plan"] for it in plans if it["endless"]]), ("search cut", [it["plan"] for it in plans if not it["complete"]])]:
        if its:
            text += f"\n{title}\n" + "".join(map(line_of, its))
    return text


# ---- a mock file with errors, by definition


def numbered(response):
    """The answers of a response by their numbers."""
    answers = {}
    for key, answer in response.items():
        low, _, high = key.partition("-")
        for number in range(int(low), min(int(high or low), ASKED) + 1):
            answers[number] = answer
    return answers


def answers_of(definition, mocks, machine, case):
    """The answers of each Task by their numbers: those of the case, of the first other case that names the Task, or of `asl mocks`."""
    found = {}
    cases = mocks["StateMachines"][machine]["TestCases"]
    for one in [cases.get(case, {}), *cases.values()]:
        for state, response in one.items():
            found.setdefault(state, numbered(mocks["MockedResponses"][response]))
    sample = read(run_program("mocks", definition, machine).stdout)
    for state, response in sample["StateMachines"][machine]["TestCases"]["good"].items():
        found.setdefault(state, numbered(sample["MockedResponses"][response]))
    return found


def with_error(answers, number, error, for_good):
    """These answers with an error before the one of this number."""
    thrown = {"Throw": {"Error": error, **({} if error == "States.Timeout" else {"Cause": "put in"})}}
    after = {k: answers[k] for k in answers if k < number}
    after[number] = thrown
    for k in range(number + 1, ASKED + 1):
        if for_good:
            after[k] = thrown
        elif k - 1 in answers:
            after[k] = answers[k - 1]
    return after


def mock_file(answers, plan_, machine, case):
    """The mock file of a case with the errors of a plan."""
    answers = dict(answers)
    for state, number, error, for_good in plan_:
        answers[state] = with_error(answers.get(state, {}), number, error, for_good)
    responses = {state: {str(number): one[number] for number in sorted(one)} for state, one in answers.items()}
    return {"StateMachines": {machine: {"TestCases": {case: {state: state for state in answers}}}}, "MockedResponses": responses}


# ---- the errors of Tasks, by definition


def tasks(machine, around=()):
    """Each Task with the states around it, the innermost first."""
    for name, state in machine["States"].items():
        if state["Type"] == "Task":
            yield name, (state, *around)
        for inner in [*state.get("Branches", []), *[state[it] for it in ("Iterator", "ItemProcessor") if it in state]]:
            yield from tasks(inner, (state, *around))


def is_for(name, error):
    return name in (error, "States.ALL") or (name == "States.TaskFailed" and error != "States.Timeout")


def handled(levels, error):
    """Which retrier and which catcher of each level is for an error."""

    def number(rows):
        return next((i for i, row in enumerate(rows) if any(is_for(name, error) for name in row["ErrorEquals"])), None)

    return [number(state.get(member, [])) for state in levels for member in ("Retry", "Catch")]


def errors(levels):
    """The errors that a Task is worth failing with."""
    names = [name for state in levels for member in ("Retry", "Catch") for row in state.get(member, []) for name in row["ErrorEquals"]]
    names = ["Unnamed" if name in ("States.ALL", "States.TaskFailed") else name for name in names if name != "States.Timeout"]
    found = []
    for name in [*names, "Unnamed"]:
        if all(handled(levels, name) != handled(levels, it) for it in found):
            found.append(name)
    return [*found, "States.Timeout"]


class Errors(ProgramTest):
    def in_room(self, texts, *words):
        """What the program does, where each word that begins with @ names a file of one of these texts."""
        with tempfile.TemporaryDirectory(prefix="asl-test-") as room:
            for name, text in texts.items():
                with open(os.path.join(room, name), "w", encoding="utf-8") as out:
                    out.write(text if isinstance(text, str) else write(text))
            return run_program(*[os.path.join(room, it[1:]) if it.startswith("@") else it for it in words], seconds=300)

    def calls(self, definition, mocks, machine, case, given):
        """How often each state is invoked at most, in any order."""
        ran = self.in_room({"mocks": mocks}, "explore", definition, "@mocks", f"{machine}#{case}", given, "--calls")
        most = {}
        for one in explored(ran.stdout).found:
            for name, count in one.calls:
                most[name] = max(most.get(name, 0), int(count.split("-")[-1]))
        return most

    def plans(self, definition, answers, machine, case, given, most_errors):
        """All plans of at most so many errors, as sets: an error more at each invocation that some order makes."""
        with open(definition, encoding="utf-8") as file:
            every = {name: errors(levels) for name, levels in tasks(json.load(file))}
        level, found = {()}, {()}
        for _ in range(most_errors):
            longer = set()
            for one in level:
                calls = self.calls(definition, mock_file(answers, one, machine, case), machine, case, given)
                for name, count in calls.items():
                    for number, error, for_good in itertools.product(range(count), every.get(name, []), (False, True)):
                        if all((name, number) != it[:2] for it in one):
                            longer.add(tuple(sorted([*one, (name, number, error, for_good)])))
            level = longer
            found |= longer
        return found

    # ---- the examples

    def test_each_plan_of_the_examples_has_the_outcomes_of_its_mock_file(self):
        for folder, chosen, given, _ in example_cases():
            machine, case = chosen.split("#")
            definition = f"{folder}/definition.json"
            with open(f"{folder}/mocks.json", encoding="utf-8") as file:
                mocks = read(file.read())
            answers = answers_of(definition, mocks, machine, case)
            ran = run_program("explore", definition, f"{folder}/mocks.json", chosen, given, "--errors", "1", seconds=300)
            count, found = told(ran.stdout)
            self.assertEqual((ran.stderr, [it for it in found if not it.startswith("outcome ")]), ("", []), chosen)
            outcomes = by_plan(found)
            self.assertEqual(ran.returncode, 0 if all(it.startswith("SUCCEEDED ") for it in outcomes[()]) else 1, chosen)
            self.assertEqual((len(outcomes), {tuple(sorted(it)) for it in outcomes}), (count, self.plans(definition, answers, machine, case, given, 1)), chosen)
            for one, its in outcomes.items():
                under = self.in_room({"mocks": mock_file(answers, one, machine, case)}, "explore", definition, "@mocks", chosen, given)
                self.assertEqual(set(its), set(explored(under.stdout).outcomes), (chosen, one))

    def test_each_witness_of_the_examples_reproduces_its_outcome(self):
        for folder, chosen, given, _ in example_cases():
            words = [f"{folder}/definition.json", f"{folder}/mocks.json", chosen, given]
            found = told(run_program("explore", *words, "--errors", "1", seconds=300).stdout)[1]
            for number, title in enumerate(found, 1):
                search = ["explore", *words, "--errors", "1", "--witness", str(number)]
                mocks = run_program(*search, "--format", "mocks", seconds=300)
                steps = run_program(*search, seconds=300)
                self.assertEqual((mocks.returncode, mocks.stderr, steps.returncode, steps.stderr), (0, "", 0, ""))
                ran = self.in_room({"mocks": mocks.stdout, "steps": steps.stdout}, "run", words[0], "@mocks", chosen, given, "--steps", "@steps")
                self.assertEqual(ran.stdout.splitlines()[-1], "status " + title.split(" ", 2)[2])
            beyond = run_program("explore", *words, "--errors", "1", "--witness", str(len(found) + 1), seconds=300)
            self.assertEqual((beyond.returncode, beyond.stdout), (2, ""))

    # ---- lines of JSON

    def test_lines_of_json_tell_what_the_text_tells(self):
        for folder, chosen, given, _ in example_cases():
            words = ["explore", f"{folder}/definition.json", f"{folder}/mocks.json", chosen, given, "--errors", "1", "--always", "not status(TIMED_OUT)", "--always", "status(SUCCEEDED)"]
            text, lines = run_program(*words, seconds=300), run_program(*words, "--format", "json", seconds=300)
            self.assertEqual((text_of(lines.stdout), lines.returncode, lines.stderr), (text.stdout, text.returncode, text.stderr), chosen)

    def test_they_tell_of_endless_orders_and_of_searches_that_are_cut(self):
        task = {"Type": "Task", "Resource": FUNCTION, "Catch": [{"ErrorEquals": ["States.ALL"], "Next": "R"}], "End": True}
        rounds = {"StartAt": "T", "States": {"T": task, "R": {"Type": "Pass", "Next": "R"}}}
        late = {"StartAt": "W", "TimeoutSeconds": 5, "States": {"W": {"Type": "Wait", "Seconds": 9, "End": True}}}
        bare = {"StartAt": "F", "States": {"F": {"Type": "Fail"}}}
        for definition, more in [(rounds, []), (rounds, ["--limit", "1"]), (late, []), (bare, []), (parallel([ONE_TASK, ONE_TASK.replace('"T"', '"U"')]), ["--limit", "1"])]:
            words = ["explore", "@definition", "--errors", "1", *more]
            text, lines = (self.in_room({"definition": definition}, *words, *it) for it in ([], ["--format", "json"]))
            self.assertEqual((text_of(lines.stdout), lines.returncode), (text.stdout, text.returncode), definition)

    # ---- two errors

    def test_no_plan_of_two_errors_is_missing(self):
        definition = {
            "StartAt": "P",
            "States": {
                "P": {
                    "Type": "Parallel",
                    "Branches": [
                        {
                            "StartAt": "A",
                            "States": {
                                "A": {
                                    "Type": "Task",
                                    "Resource": FUNCTION,
                                    "Retry": [{"ErrorEquals": ["Busy", "States.Timeout"], "MaxAttempts": 1}],
                                    "Catch": [{"ErrorEquals": ["States.ALL"], "Next": "U"}],
                                    "End": True,
                                },
                                "U": {"Type": "Task", "Resource": FUNCTION, "End": True},
                            },
                        },
                        {"StartAt": "B", "States": {"B": {"Type": "Task", "Resource": FUNCTION, "End": True}}},
                    ],
                    "Catch": [{"ErrorEquals": ["Lost"], "Next": "L"}],
                    "End": True,
                },
                "L": {"Type": "Succeed"},
            },
        }
        mocks = {"StateMachines": {"M": {"TestCases": {"c": {"A": "R", "B": "R"}}}}, "MockedResponses": {"R": {"0-20": {"Return": 1}}}}
        with tempfile.TemporaryDirectory(prefix="asl-test-") as room:
            path, given = os.path.join(room, "definition"), os.path.join(room, "input")
            for name, text in [(path, json.dumps(definition)), (given, "{}")]:
                with open(name, "w", encoding="utf-8") as out:
                    out.write(text)
            answers = answers_of(path, mocks, "M", "c")
            for most in (0, 1, 2):
                ran = self.in_room({"mocks": mocks}, "explore", path, "@mocks", "M#c", given, "--errors", str(most))
                count, found = told(ran.stdout)
                outcomes = by_plan(found)
                wanted = self.plans(path, answers, "M", "c", given, most)
                self.assertEqual((count, {tuple(sorted(it)) for it in outcomes}), (len(outcomes), wanted))
                for one, its in list(outcomes.items())[::7]:
                    under = self.in_room({"mocks": mock_file(answers, one, "M", "c")}, "explore", path, "@mocks", "M#c", given)
                    self.assertEqual(set(its), set(explored(under.stdout).outcomes), one)

    # ---- errors that are named

    def test_errors_that_are_named_are_put_in_alone(self):
        task = {"Type": "Task", "Resource": FUNCTION, "Retry": [{"ErrorEquals": ["Busy"], "MaxAttempts": 1}], "End": True}
        texts = {"definition": {"StartAt": "T", "States": {"T": task}}}
        spans = ("once", "always")
        for names in (["Lost"], ["Lost", "Busy"], ["Busy", "Lost", "Busy"], ["States.Timeout"]):
            words = [word for name in names for word in ("--error", name)]
            count, found = told(self.in_room(texts, "explore", "@definition", "--errors", "1", *words).stdout)
            wanted = {(), *((("T", 0, name, span == "always"),) for name in names for span in spans)}
            self.assertEqual((count, set(by_plan(found))), (len(wanted), wanted), names)
        count, found = told(self.in_room(texts, "explore", "@definition", "--errors", "2", "--error=Busy").stdout)
        # behind `Busy`, once or for good, it is put in at the retry, too
        self.assertEqual((count, max(map(len, by_plan(found)))), (1 + 2 + 2 * 2, 2))

    # ---- the answers of Tasks that the case doesn't name

    ONE = {"StartAt": "T", "States": {"T": {"Type": "Task", "Resource": FUNCTION, "ResultPath": "$.t", "OutputPath": "$.t.id", "End": True}}}

    def outcomes_of(self, mocks, *words, given="{}"):
        texts = {"definition": self.ONE, "mocks": mocks, "input": given}
        ran = self.in_room(texts, "explore", "@definition", *words, "--errors", "0")
        self.assertEqual((ran.returncode, ran.stderr), (0, ""))
        return list(told(ran.stdout)[1])

    def test_they_are_those_of_the_first_other_case_of_the_machine(self):
        responses = {"R": {"0": {"Return": {"id": 1}}}, "Q": {"0": {"Return": {"id": 2}}}}
        cases = {"none": {}, "one": {"T": "R"}, "two": {"T": "Q"}}
        other = {"N": {"TestCases": {"three": {"T": "Q"}}}}
        mocks = {"StateMachines": {**other, "M": {"TestCases": cases}}, "MockedResponses": responses}
        self.assertEqual(self.outcomes_of(mocks, "@mocks", "M#none", "@input"), ["outcome 1 SUCCEEDED 1"])
        self.assertEqual(self.outcomes_of(mocks, "@mocks", "M#two", "@input"), ["outcome 1 SUCCEEDED 2"])

    def test_else_they_are_those_of_a_mock_file_to_begin_with(self):
        mocks = {"StateMachines": {"M": {"TestCases": {"none": {}}}}, "MockedResponses": {}}
        self.assertEqual(self.outcomes_of(mocks, "@mocks", "M#none", "@input"), ['outcome 1 SUCCEEDED "..."'])

    def test_no_mock_file_need_be_named(self):
        self.assertEqual(self.outcomes_of("{}"), ['outcome 1 SUCCEEDED "..."'])
        self.assertEqual(self.outcomes_of("{}", "--input", "@input", given='{"a":1}'), ['outcome 1 SUCCEEDED "..."'])
        for definition in sorted(glob.glob(f"{os.path.dirname(__file__)}/../examples/*/definition.json")):
            ran = run_program("explore", definition, "--errors", "1", seconds=300)
            self.assertIn(ran.returncode, (0, 1), definition)
            self.assertRegex(ran.stdout, r"\Aplans \d+\n\noutcome 1 ")

    def test_the_mock_file_of_a_plan_names_the_machine_of_the_sample(self):
        ran = self.in_room({"definition": self.ONE}, "explore", "@definition", "--errors", "1", "--witness", "2", "--format", "mocks")
        made = json.loads(ran.stdout)
        self.assertEqual(made["StateMachines"], {"Machine": {"TestCases": {"good": {"T": "T"}}}})
        self.assertEqual(made["MockedResponses"]["T"]["0"], {"Throw": {"Error": "Unnamed", "Cause": "put in"}})

    # ---- statuses and wrong words

    def test_a_search_that_is_cut_or_never_ends_isn_t_whole(self):
        cut = self.in_room({"definition": parallel([ONE_TASK.replace('"T"', f'"{name}"') for name in ("A", "B")])}, "explore", "@definition", "--errors", "1", "--limit", "1")
        self.assertEqual((cut.returncode, "search cut" in told(cut.stdout)[1]), (1, True))
        task = {"Type": "Task", "Resource": FUNCTION, "Catch": [{"ErrorEquals": ["States.ALL"], "Next": "R"}], "End": True}
        rounds = {"StartAt": "T", "States": {"T": task, "R": {"Type": "Pass", "Next": "R"}}}
        ran = self.in_room({"definition": rounds}, "explore", "@definition", "--errors", "1")
        self.assertEqual(ran.returncode, 1)
        self.assertEqual([sorted(it) for it in told(ran.stdout)[1]["endless"]], [[("T", 0, error, span)] for error in ("Unnamed", "States.Timeout") for span in (False, True)])

    def test_a_failure_without_an_error_is_told_by_the_status(self):
        fails = {"StartAt": "T", "States": {"T": {"Type": "Task", "Resource": FUNCTION, "Next": "F"}, "F": {"Type": "Fail", "Error": "E"}}}
        ran = self.in_room({"definition": fails}, "explore", "@definition", "--errors", "1")
        self.assertEqual((ran.returncode, list(told(ran.stdout)[1])[0]), (1, 'outcome 1 FAILED {"Error":"E"}'))
        well = self.in_room({"definition": self.ONE}, "explore", "@definition", "--errors", "1")
        self.assertEqual(well.returncode, 0)

    def test_words_that_exclude_one_another_are_told(self):
        texts = {"definition": self.ONE}
        for words, line in [
            (["--errors", "1", "--calls"], "'--calls'"),
            (["--errors", "3"], "'3'"),
            (["--errors", "1", "--format", "tree"], "--witness <I>"),
            (["--errors", "1", "--case", "M#c"], "<MOCKS>"),
            (["--error", "Busy"], "the argument '--error <NAME>' is for --errors"),
            (["--errors", "1", "--error"], "--error <NAME>"),
            (["--errors", "1", "--witness", "1", "--format", "json"], "'--format json' cannot be used with '--witness <I>'"),
        ]:
            ran = self.in_room(texts, "explore", "@definition", *words)
            self.assertEqual((ran.returncode, ran.stdout), (2, ""), words)
            self.assertIn(line, ran.stderr, words)
        ran = self.in_room({**texts, "mocks": "{}", "input": "{}"}, "explore", "@definition", "@mocks", "M", "@input", "--witness", "1", "--format", "mocks")
        self.assertEqual((ran.returncode, ran.stdout), (2, ""))
        self.assertIn("the value 'mocks' of '--format' is for --errors", ran.stderr)
        ran = self.in_room({**texts, "mocks": "{}", "input": "{}"}, "explore", "@definition", "@mocks", "M", "@input", "--format", "json")
        self.assertEqual((ran.returncode, ran.stdout), (2, ""))
        self.assertIn("the value 'json' of '--format' is for --errors", ran.stderr)

    def test_a_definition_alone_is_needed(self):
        ran = run_program("explore", "--errors", "1")
        self.assertEqual((ran.returncode, ran.stdout), (2, ""))
        self.assertIn("<DEF>", ran.stderr)
        for word in ("MOCKS", "CHOSEN", "INPUT"):
            self.assertNotIn(f"<{word}>", ran.stderr)

    def test_a_definition_with_a_fault_is_refused(self):
        ran = self.in_room({"definition": '{"StartAt":"A","States":{}}'}, "explore", "@definition", "--errors", "1")
        self.assertEqual((ran.returncode, ran.stdout), (2, ""))
        self.assertRegex(ran.stderr, r"\Afault: definition: F\d+ ")
        ran = run_program("explore", "/nowhere", "--errors", "1")
        self.assertEqual((ran.returncode, ran.stderr.splitlines()[0]), (2, "fault: file /nowhere"))
