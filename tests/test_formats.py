"""The formats of runs: each tells what the usual text tells, and the steps of a run lead to the same history."""
import glob
import json
import os
import re
import tempfile

from program import TOP, ProgramTest, run_program

EVENT = re.compile(r'(\d+) (\d+) (\S+) (\S+) (\w+) ("(?:[^"\\]|\\.)*") (.*)')

# The member with the details of an event, by its kind, where it has any; and what they are made of.
STATE = {"Entered": ("stateEnteredEventDetails", "input"), "Exited": ("stateExitedEventDetails", "output")}
OWN = {
    "ExecutionStarted": "input",
    "ExecutionSucceeded": "output",
    "TaskSucceeded": "output",
    "TaskScheduled": "parameters",
    "ExecutionFailed": "error",
    "ExecutionTimedOut": "error",
    "TaskFailed": "error",
    "TaskTimedOut": "error",
    "MapStateStarted": "length",
    "MapIterationStarted": "index",
    "MapIterationSucceeded": "index",
    "MapIterationFailed": "index",
}


def said(key, body):
    """A value as a text, and that nothing was cut off."""
    return {key: body, f"{key}Details": {"truncated": False}}


def tasks_in(value):
    """Each Task in a part of a definition, by its name."""
    if isinstance(value, list):
        return {name: task for item in value for name, task in tasks_in(item).items()}
    if not isinstance(value, dict):
        return {}
    own = {name: state for name, state in value.get("States", {}).items() if "Resource" in state}
    return {**own, **tasks_in(list(value.values()))}


def called(resource):
    """What a Task of this resource calls."""
    arn = resource.split(":")
    if arn[2:3] != ["states"]:
        return {"resourceType": "".join(arn[2:3]), "resource": resource}
    front = 2 if arn[5] == "aws-sdk" else 1
    return {"resourceType": ":".join(arn[5 : 5 + front]), "resource": ":".join(arn[5 + front :])}


def limits(task):
    """How long a Task may take, as the service tells it where it is scheduled."""
    return {f"{key.lower()}InSeconds": int(task[f"{key}Seconds"]) for key in ("Timeout", "Heartbeat") if f"{key}Seconds" in task}


def details(kind, name, body, tasks):
    """The details of an event, in a member; `body` is a text."""
    if kind.startswith("Task") and "State" not in kind:
        key = OWN.get(kind)
        more = said("output", body) if key == "output" else {}
        if key == "parameters":
            more = {"region": "us-east-1", "parameters": body, **limits(tasks[name])}
        if key == "error":
            value = json.loads(body)
            more = {low: value[low.capitalize()] for low in ("error", "cause") if low.capitalize() in value}
        return {f"{kind[0].lower()}{kind[1:]}EventDetails": {**called(tasks[name]["Resource"]), **more}}
    state = re.fullmatch(r"\w+State(Entered|Exited)", kind)
    if state:
        member, key = STATE[state[1]]
        return {member: {"name": name, **said(key, body)}}
    key = OWN.get(kind)
    if key is None:
        return {}
    value = json.loads(body)
    inside = {
        "error": lambda: {low: value[low.capitalize()] for low in ("error", "cause") if low.capitalize() in value},
        "length": lambda: {"length": value["length"]},
        "index": lambda: {"name": name, "index": value["index"]},
    }.get(key, lambda: said(key, body))()
    return {f"{kind[0].lower()}{kind[1:]}EventDetails": inside}


def events_in(text):
    """The events of a usual text, each as the words of its line."""
    return [EVENT.fullmatch(line).groups() for line in text.splitlines() if line[0].isdigit()]


class FormatsTest(ProgramTest):
    def cases(self):
        """The words of a run of each case of each example, and the usual text."""
        for stored in sorted(glob.glob(f"{TOP}/examples/*/*.driven.txt")):
            folder, case = os.path.dirname(stored), os.path.basename(stored)[: -len(".driven.txt")]
            given = f"{folder}/{case}.input.json"
            given = given if os.path.exists(given) else f"{folder}/input.json"
            with open(stored, encoding="utf-8") as file:
                text = file.read()
            yield [f"{folder}/definition.json", f"{folder}/mocks.json", f"{os.path.basename(folder)}#{case}", given], text

    def formatted(self, words, text, form):
        """What a run prints in a format; its status is that of the usual text."""
        ran = run_program("run", *words, "--format", form)
        wanted = 0 if text.splitlines()[-1].startswith("status SUCCEEDED ") else 1
        self.assertEqual((ran.returncode, ran.stderr), (wanted, ""))
        return ran.stdout

    def told_of_a_task(self, resource, members="", words=()):
        """What a run of one Task of this resource prints, in the shape of the service. Its state has these members, too, each with a comma behind; the command has these words, too."""
        texts = {
            "definition": '{"StartAt":"T","States":{"T":{"Type":"Task","Resource":"%s",%s"End":true}}}' % (resource, members),
            "mocks": '{"StateMachines":{"m":{"TestCases":{"c":{"T":"R"}}}},"MockedResponses":{"R":{"0":{"Return":1}}}}',
            "input": "{}",
        }
        with tempfile.TemporaryDirectory(prefix="asl-test-") as folder:
            for name, text in texts.items():
                with open(f"{folder}/{name}", "w", encoding="utf-8") as file:
                    file.write(text)
            return self.formatted([f"{folder}/definition", f"{folder}/mocks", "m#c", f"{folder}/input", *words], "status SUCCEEDED ", "aws")

    def test_lines_of_json(self):
        for words, text in self.cases():
            with self.subTest(words[2]):
                wanted = [
                    '{"id":%s,"previousEventId":%s,"timestamp":"%s","place":"%s","type":"%s","name":%s,"body":%s}' % event for event in events_in(text)
                ]
                told = self.formatted(words, text, "json")
                self.assertEqual(told.splitlines(), wanted)
                for line in wanted:
                    json.loads(line)

    def test_the_shape_of_the_service(self):
        for words, text in self.cases():
            with self.subTest(words[2]):
                wanted = []
                with open(words[0], encoding="utf-8") as file:
                    tasks = tasks_in(json.load(file))
                for number, previous, stamp, _, kind, name, body in events_in(text):
                    kind = "TaskTimedOut" if kind == "TaskFailed" and json.loads(body).get("Error") == "States.Timeout" else kind
                    event = {"timestamp": stamp, "type": kind, "id": int(number), "previousEventId": int(previous)}
                    wanted.append({**event, **details(kind, json.loads(name), body, tasks)})
                told = self.formatted(words, text, "aws")
                self.assertEqual(json.loads(told), {"events": wanted})
                self.assertEqual(told.count("\n"), 1)

    def test_what_a_task_calls(self):
        for resource, kind, called_so in (
            ("arn:aws:states:::lambda:invoke", "lambda", "invoke"),
            ("arn:aws-cn:states:::sqs:sendMessage.waitForTaskToken", "sqs", "sendMessage.waitForTaskToken"),
            ("arn:aws:states:::aws-sdk:s3:getObject", "aws-sdk:s3", "getObject"),
            ("arn:aws:states:::states:startExecution.sync:2", "states", "startExecution.sync:2"),
            ("arn:aws:lambda:eu-west-1:123456789012:function:Charge:1", "lambda", "arn:aws:lambda:eu-west-1:123456789012:function:Charge:1"),
            ("arn:aws:states:eu-west-1:123456789012:activity:Approve", "activity", "Approve"),
            ("charge", "", "charge"),
        ):
            with self.subTest(resource):
                told = json.loads(self.told_of_a_task(resource))
                found = [event["taskScheduledEventDetails"] for event in told["events"] if event["type"] == "TaskScheduled"]
                self.assertEqual([(one["resourceType"], one["resource"], one["region"]) for one in found], [(kind, called_so, "us-east-1")])

    def test_the_region_is_told(self):
        for words, region in ((["--region", "eu-central-1"], "eu-central-1"), (["--region", 'a "b"'], 'a "b"'), (["--region", ""], ""), ([], "us-east-1")):
            with self.subTest(words):
                plain = self.told_of_a_task("arn:aws:states:::lambda:invoke")
                told = self.told_of_a_task("arn:aws:states:::lambda:invoke", words=words)
                self.assertEqual(told, plain.replace('"region":"us-east-1"', f'"region":{json.dumps(region)}'))

    def test_how_long_a_task_may_take(self):
        for members, wanted in (
            ("", ""),
            ('"TimeoutSeconds":300,', ',"timeoutInSeconds":300'),
            ('"TimeoutSeconds":3e2,"HeartbeatSeconds":60.0,', ',"timeoutInSeconds":300,"heartbeatInSeconds":60'),
            ('"HeartbeatSeconds":99999999,', ',"heartbeatInSeconds":99999999'),
            ('"TimeoutSecondsPath":"$.t","HeartbeatSecondsPath":"$.h",', ""),
        ):
            with self.subTest(members):
                told = self.told_of_a_task("r", members)
                self.assertEqual(re.findall(r'"parameters":"{}"([^}]*)}}', told), [wanted])

    def test_steps_lead_to_the_same_history(self):
        for words, text in self.cases():
            with self.subTest(words[2]), tempfile.NamedTemporaryFile(prefix="asl-test-") as file:
                steps = self.formatted(words, text, "steps")
                file.write(steps.encode())
                file.flush()
                again = run_program("run", *words, "--steps", file.name)
                self.assertEqual("".join(line for line in again.stdout.splitlines(True) if not line.startswith("step ")), text)
                self.assertNotIn(" refused", again.stdout)
                same = run_program("run", *words, "--steps", file.name, "--format", "steps")
                self.assertEqual(same.stdout, steps)

    def test_text_is_the_default(self):
        for words, text in self.cases():
            self.assertEqual(self.formatted(words, text, "text"), text)
            break
