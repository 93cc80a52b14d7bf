"""Mock files to begin with: the emulator accepts them, each Task gets an answer with what the definition reads of it, and the first run goes well."""
import glob
import json
import os
import tempfile

from program import TOP, ProgramTest, run_program, without_mending
from samples import ANSWERS, answers

FUNCTION = "arn:aws:lambda:eu-west-1:123456789012:function:f"
INVOKE = "arn:aws:states:::lambda:invoke"


def machine(start, **states):
    return {"StartAt": start, "States": states}


def task(resource=FUNCTION, **members):
    return {"Type": "Task", "Resource": resource, **members}


def succeed(**members):
    return {"Type": "Succeed", **members}


def choice(rules, **members):
    return {"Type": "Choice", "Choices": rules, **members}


FAIL = {"Type": "Fail", "Error": "E"}
# Definitions of which the first run is to go well, with the empty object for an input, and what is answered in it.
FIRST_RUNS = {
    "a chain of Tasks": (
        machine(
            "A",
            A=task(Next="B"),
            B=task(Parameters={"id.$": "$.id", "name.$": "$.items[0].name"}, Next="C"),
            C=task(InputPath="$.total", End=True),
        ),
        {"A": {"id": "...", "items": [{"name": "..."}]}, "B": {"total": "..."}, "C": {}},
    ),
    "an index past the first": (
        machine("A", A=task(Next="B"), B={"Type": "Pass", "InputPath": "$.rows[2].id", "End": True}),
        {"A": {"rows": ["...", "...", {"id": "..."}]}},
    ),
    "a Choice finds the constant of its first rule": (
        machine(
            "A",
            A=task(Next="C"),
            C=choice(
                [
                    {"Variable": "$.status", "StringEquals": "PAID", "Next": "S"},
                    {"Variable": "$.status", "StringEquals": "OPEN", "Next": "F"},
                    {"Variable": "$.tries", "NumericLessThanEquals": 3, "Next": "A"},
                ],
                Default="F",
            ),
            S=succeed(),
            F=FAIL,
        ),
        {"A": {"status": "PAID", "tries": 3}},
    ),
    "values of the types that rules ask for": (
        machine(
            "A",
            A=task(Next="C"),
            C=choice(
                [
                    {
                        "And": [
                            {"Variable": "$.n", "IsNumeric": True},
                            {"Variable": "$.b", "IsBoolean": True},
                            {"Not": {"Variable": "$.gone", "IsNull": True}},
                            {"Variable": "$.t", "IsTimestamp": True},
                            {"Variable": "$.t", "TimestampLessThan": "2030-01-01T00:00:00Z"},
                            {"Variable": "$.n", "NumericEqualsPath": "$.m"},
                        ],
                        "Next": "S",
                    }
                ],
                Default="F",
            ),
            S=succeed(),
            F=FAIL,
        ),
        {"A": {"n": 1, "b": True, "gone": "...", "t": "2024-01-01T00:00:00Z", "m": 1}},
    ),
    "asking until it is done": (
        machine(
            "Start",
            Start=task(INVOKE, ResultSelector={"id.$": "$.Payload.jobId"}, ResultPath="$.job", Next="Wait"),
            Wait={"Type": "Wait", "Seconds": 1, "Next": "Ask"},
            Ask=task(INVOKE, Parameters={"Payload": {"id.$": "$.job.id"}}, ResultPath="$.report", Next="Done"),
            Done=choice([{"Variable": "$.report.Payload.done", "BooleanEquals": True, "Next": "S"}], Default="Wait"),
            S=succeed(OutputPath="$.report.Payload.result"),
        ),
        {
            "Start": {"ExecutedVersion": "$LATEST", "Payload": {"jobId": "..."}, "StatusCode": 200},
            "Ask": {"ExecutedVersion": "$LATEST", "Payload": {"result": "...", "done": True}, "StatusCode": 200},
        },
    ),
    "a moment to wait for": (
        machine(
            "A",
            A=task(Next="W"),
            W={"Type": "Wait", "TimestampPath": "$.at", "Next": "B"},
            B={"Type": "Pass", "Parameters": {"text.$": "States.Format('{} {}', $.who, $.what)"}, "End": True},
        ),
        {"A": {"who": "...", "what": "...", "at": "2024-01-01T00:00:00Z"}},
    ),
    "seconds to wait for": (
        machine(
            "A",
            A=task(ResultPath="$.delay", Next="W"),
            W={"Type": "Wait", "SecondsPath": "$.delay.seconds", "Next": "S"},
            S=succeed(OutputPath="$.delay.next"),
        ),
        {"A": {"next": "...", "seconds": 1}},
    ),
    "items of a Map": (
        machine(
            "List",
            List=task(Next="Each"),
            Each={
                "Type": "Map",
                "ItemsPath": "$.Contents",
                "ItemSelector": {"key.$": "$$.Map.Item.Value.Key", "bucket.$": "$.Name"},
                "ItemProcessor": machine("One", One=task(INVOKE, OutputPath="$.Payload.ok", End=True)),
                "ResultPath": "$.done",
                "Next": "S",
            },
            S=succeed(OutputPath="$.done[0].size"),
        ),
        {
            "List": {"Name": "...", "Contents": [{"Key": "..."}]},
            "One": {"ExecutedVersion": "$LATEST", "Payload": {"ok": {"size": "..."}}, "StatusCode": 200},
        },
    ),
    "items as they are": (
        machine(
            "List",
            List=task(ResultPath="$.list", Next="Each"),
            Each={
                "Type": "Map",
                "ItemsPath": "$.list.rows",
                "Iterator": machine("P", P={"Type": "Pass", "Parameters": {"id.$": "$.id"}, "End": True}),
                "End": True,
            },
        ),
        {"List": {"rows": [{"id": "..."}]}},
    ),
    "what functions take": (
        machine(
            "A",
            A=task(
                ResultSelector={
                    "n.$": "States.ArrayLength($.rows)",
                    "sum.$": "States.MathAdd($.a, 1)",
                    "read.$": "States.StringToJson($.text)",
                    "list.$": "States.Array($.x, $$.Execution.Name)",
                },
                End=True,
            ),
        ),
        {"A": {"rows": ["..."], "a": 1, "text": "{}", "x": "..."}},
    ),
    "results of branches": (
        machine(
            "P",
            P={"Type": "Parallel", "Branches": [machine("A", A=task(End=True)), machine("B", B=task(OutputPath="$.out", End=True))], "Next": "Q"},
            Q={"Type": "Pass", "Parameters": {"a.$": "$[0].a.b", "b.$": "$[1].c"}, "End": True},
        ),
        {"A": {"a": {"b": "..."}}, "B": {"out": {"c": "..."}}},
    ),
    "an input of branches": (
        machine(
            "T",
            T=task(Next="P"),
            P={
                "Type": "Parallel",
                "Parameters": {"order.$": "$.order"},
                "Branches": [machine("A", A={"Type": "Pass", "InputPath": "$.order.id", "End": True})],
                "End": True,
            },
        ),
        {"T": {"order": {"id": "..."}}},
    ),
    "through a template": (
        machine(
            "A",
            A=task(Next="W"),
            W={"Type": "Pass", "Parameters": {"body.$": "$", "meta": {"n": 1}}, "Next": "B"},
            B=task(Parameters={"x.$": "$.body.deep.x"}, ResultPath=None, Next="S"),
            S=succeed(OutputPath="$.body.out"),
        ),
        {"A": {"out": "...", "deep": {"x": "..."}}, "B": {}},
    ),
    "an object before a text": (
        machine("A", A=task(Next="B"), B=task(Parameters={"all.$": "$.x"}, ResultPath=None, Next="S"), S=succeed(OutputPath="$.x.y")),
        {"A": {"x": {"y": "..."}}, "B": {}},
    ),
    "what is undone behind a catcher": (
        machine(
            "Book",
            Book=task(ResultPath="$.booked", Next="Charge"),
            Charge=task(INVOKE, ResultPath="$.charged", Catch=[{"ErrorEquals": ["States.ALL"], "ResultPath": "$.failed", "Next": "Undo"}], Next="S"),
            Undo=task(InputPath="$.booked.id", ResultPath=None, Next="F"),
            F={"Type": "Fail", "ErrorPath": "$.failed.Error", "CausePath": "$.failed.Cause"},
            S=succeed(),
        ),
        {"Book": {"id": "..."}, "Charge": {"ExecutedVersion": "$LATEST", "Payload": {}, "StatusCode": 200}, "Undo": {}},
    ),
    "a result that is all that is left behind a catcher": (
        machine(
            "A",
            A=task(Next="B"),
            B=task(Catch=[{"ErrorEquals": ["States.ALL"], "Next": "C"}], Next="S"),
            C={"Type": "Pass", "InputPath": "$.Error", "End": True},
            S=succeed(OutputPath="$.x"),
        ),
        {"A": {}, "B": {"x": "..."}},
    ),
    "a document in no order": (
        machine(
            "Start",
            Check=choice([{"Variable": "$.ok", "BooleanEquals": True, "Next": "Finish"}], Default="Start"),
            Finish=succeed(OutputPath="$.value"),
            Start=task(Next="Check"),
        ),
        {"Start": {"value": "...", "ok": True}},
    ),
    "another Task's paths": (
        machine(
            "A",
            A=task(ResultPath="$.a", Next="B"),
            B=task(ResultPath="$.b", Next="C"),
            C={"Type": "Pass", "Parameters": {"x.$": "$.a.x", "y.$": "$.b.y"}, "End": True},
        ),
        {"A": {"x": "..."}, "B": {"y": "..."}},
    ),
    "a child execution": (
        machine(
            "Run",
            Run=task("arn:aws:states:::states:startExecution.sync:2", ResultSelector={"total.$": "$.Output.total"}, Next="C"),
            C=choice([{"Variable": "$.total", "NumericGreaterThanEquals": 100, "Next": "S"}], Default="F"),
            S=succeed(),
            F=FAIL,
        ),
        {"Run": {"Output": {"total": 100}, "Status": "SUCCEEDED"}},
    ),
}


def written(path, name):
    """The mock file that the tests expect."""
    with open(path, encoding="utf-8") as file:
        known = answers(json.load(file))
    responses = {task_name: {"0-999999999": {"Return": answer}} for task_name, answer in known.items()}
    return {"StateMachines": {name: {"TestCases": {"good": {task_name: task_name for task_name in known}}}}, "MockedResponses": responses}


class MocksTest(ProgramTest):
    def mocks(self, path, *words):
        """What is printed for a definition."""
        ran = run_program("mocks", path, *words)
        self.assertEqual((ran.returncode, ran.stderr), (0, ""))
        return ran.stdout

    def mocks_of(self, definition):
        """The same for a value."""
        with tempfile.TemporaryDirectory(prefix="asl-test-") as room:
            path = os.path.join(room, "definition.json")
            with open(path, "w", encoding="utf-8") as file:
                json.dump(definition, file)
            text = self.mocks(path)
            self.assertEqual(json.loads(text), written(path, "Machine"))
        return text

    def chain(self, resources):
        """The definition of Tasks, one behind the other."""
        names = [f"T{number}" for number in range(len(resources))]
        states = {name: task(r, Next=follower) for name, r, follower in zip(names, resources, names[1:] + ["S"])}
        return {"StartAt": "T0", "States": {**states, "S": succeed()}}

    def test_the_examples(self):
        for path in glob.glob(f"{TOP}/examples/*/definition.json"):
            with self.subTest(path):
                text = self.mocks(path, 'a "machine"')
                self.assertEqual(json.loads(text), written(path, 'a "machine"'))
                self.assertEqual(text.count("\n"), 1)

    def test_the_first_run_of_an_example(self):
        for path in glob.glob(f"{TOP}/examples/*/definition.json"):
            given = os.path.join(os.path.dirname(path), "input.json")
            with self.subTest(path), open(path, encoding="utf-8") as definition, open(given, encoding="utf-8") as text:
                told = self.told(definition.read(), text.read(), mocks=self.mocks(path), chosen="Machine#good")
                self.assertTrue(told.splitlines()[-1].startswith("status SUCCEEDED "), told)

    def test_each_resource_and_a_run(self):
        definition = self.chain(list(ANSWERS))
        told = self.told(json.dumps(definition), mocks=self.mocks_of(definition), chosen="Machine#good")
        self.assertTrue(told.splitlines()[-1].startswith("status SUCCEEDED "), told)
        self.assertEqual(told.count(" TaskSucceeded "), len(ANSWERS))

    def test_what_is_read_of_answers(self):
        for what, (definition, wanted) in FIRST_RUNS.items():
            with self.subTest(what):
                text = self.mocks_of(definition)
                found = {name: spans["0-999999999"]["Return"] for name, spans in json.loads(text)["MockedResponses"].items()}
                self.assertEqual(json.dumps(found), json.dumps({name: wanted[name] for name in found}))
                told = self.told(json.dumps(definition), mocks=text, chosen="Machine#good")
                self.assertTrue(told.splitlines()[-1].startswith("status SUCCEEDED "), told)

    def test_a_sample_stays_short(self):
        states = {f"T{number}": task(InputPath=f"$.{'x' * 90}{number}", ResultPath="$.y", Next=f"T{number + 1}") for number in range(200)}
        text = self.mocks_of(machine("A", A=task(Next="T0"), **states, T200=succeed()))
        self.assertLess(len(text), 40000)

    def test_a_definition_without_tasks(self):
        text = self.mocks(f"{TOP}/examples/hello/definition.json", "Hello")
        self.assertEqual(text, '{"StateMachines":{"Hello":{"TestCases":{"good":{}}}},"MockedResponses":{}}\n')

    def test_a_faulty_definition_is_refused(self):
        ran = run_program("mocks", f"{TOP}/examples/refused.json")
        self.assertEqual((ran.returncode, ran.stdout, without_mending(ran.stderr)), (2, "", "fault: definition: F10 NoTarget /States/A/Next\n"))
