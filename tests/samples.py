"""What `asl mocks` answers to the Tasks of a definition: a second account of it, in the words of docs/FORMATS.md."""
import json
import re

# What services answer.
ANSWERS = {
    "arn:aws:states:::lambda:invoke": {"ExecutedVersion": "$LATEST", "Payload": {}, "StatusCode": 200},
    "arn:aws:states:::sqs:sendMessage": {"MD5OfMessageBody": "d41d8cd98f00b204e9800998ecf8427e", "MessageId": "message-1"},
    "arn:aws:states:::sns:publish": {"MessageId": "message-1"},
    "arn:aws:states:::dynamodb:getItem": {"Item": {}},
    "arn:aws:states:::dynamodb:putItem": {},
    "arn:aws:states:::events:putEvents": {"Entries": [{"EventId": "event-1"}], "FailedEntryCount": 0},
    "arn:aws:states:::states:startExecution.sync:2": {"Output": {}, "Status": "SUCCEEDED"},
    "arn:aws:states:::states:startExecution.sync": {"Output": "{}", "Status": "SUCCEEDED"},
    "arn:aws:lambda:eu-west-1:123456789012:function:f": {},
}
ANY = "..."
MOMENT = "2024-01-01T00:00:00Z"
STEP = re.compile(r"""\.([\w-]+)|\['([^'\\]*)'\]|\["([^"\\]*)"\]|\[(\d{1,9})\]""")


def weight(value):
    """How much a value tells of a shape."""
    if isinstance(value, str):
        return 0 if value == ANY else 2
    if isinstance(value, dict):
        return 4 if value else 1
    return 3 if isinstance(value, list) else 2


def merged(one, other):
    """A value of the shape of both."""
    if isinstance(one, dict) and isinstance(other, dict):
        mine = {key: merged(value, other[key]) if key in other else value for key, value in one.items()}
        return {**mine, **{key: value for key, value in other.items() if key not in one}}
    if isinstance(one, list) and isinstance(other, list):
        mine = [merged(value, other[at]) if at < len(other) else value for at, value in enumerate(one)]
        return mine + other[len(one) :]
    return other if weight(one) < weight(other) else one


def both(one, other):
    """The same, within the length of a sample."""
    value = merged(one, other)
    return value if len(json.dumps(value, ensure_ascii=False, separators=(",", ":")).encode()) <= 2000 else one


def all_of(wants):
    """What all of these want."""
    found = ANY
    for want in wants:
        found = both(found, want)
    return found


def steps(path):
    """The steps of a path, or None."""
    root = re.match(r"\$\$?", path)
    if not root:
        return None
    at, found = root.end(), []
    while at < len(path):
        step = STEP.match(path, at)
        if not step:
            return None
        at = step.end()
        found.append(int(step[4]) if step[4] is not None else next(name for name in step.groups()[:3] if name is not None))
    return found


def part(path, value):
    """The part that a path names."""
    way = steps(path)
    for step in [None] if way is None else way:
        if isinstance(step, str) and isinstance(value, dict) and step in value:
            value = value[step]
        elif isinstance(step, int) and isinstance(value, list) and step < len(value):
            value = value[step]
        else:
            return ANY
    return value


def under(path, value):
    """A value under the names of a path."""
    way = steps(path)
    if way is None or any(isinstance(step, int) for step in way):
        return ANY
    for name in reversed(way):
        value = {name: value}
    return value


def number(text):
    """The number that a text begins with."""
    found = 0
    for digit in text:
        if found >= 64 or not "0" <= digit <= "9":
            break
        found = found * 10 + int(digit)
    return found


def below(path, value):
    """The least value in which a path names this one."""
    if len(path.encode()) > 1000:
        return ANY
    front, bracket, inside = path.partition("[")
    if not bracket or inside[:1] in ("'", '"'):
        return under(path, value)
    index, bracket, behind = inside.partition("]")
    return under(front, [ANY] * number(index) + [under("$" + behind, value)]) if bracket else ANY


def path_wants(root, path, want):
    """What a path from this root wants of it."""
    behind = path[len(root) :]
    return below("$" + behind, want) if path.startswith(root) and behind[:1] in ("", ".", "[") else ANY


def argument_of(call):
    """What a function takes."""
    if call.startswith("States.Math"):
        return 1
    if call.startswith("States.StringToJson"):
        return "{}"
    return [ANY] if call.startswith("States.Array") and not call.startswith("States.Array(") else ANY


def text_wants(root, text, want):
    """What a path or a call wants."""
    if not isinstance(text, str):
        return ANY
    if text.startswith("$"):
        return path_wants(root, text, want)
    behind = [argument.partition("$")[2] for argument in text.split(",") if "$" in argument]
    return all_of(path_wants(root, "$" + argument.partition(")")[0], argument_of(text)) for argument in behind)


def at_key(value, key):
    return value[key] if isinstance(value, dict) and key in value else ANY


def at_index(value, index):
    return value[index] if isinstance(value, list) and index < len(value) else ANY


def through(root, template, want):
    """What a template wants of a root."""
    if isinstance(template, dict):
        return all_of(
            text_wants(root, value, at_key(want, key[:-2])) if key.endswith(".$") else through(root, value, at_key(want, key))
            for key, value in template.items()
        )
    return all_of(through(root, value, ANY) for value in template) if isinstance(template, list) else ANY


def held(rule):
    """A value for which the comparison of a rule holds."""
    for key, value in rule.items():
        if key in ("IsNumeric", "IsBoolean", "IsTimestamp"):
            return {"IsNumeric": 1, "IsBoolean": True, "IsTimestamp": MOMENT}[key]
        if key.startswith("Is"):
            return ANY
        if key.endswith("Path"):
            return 1 if key.startswith("Numeric") else ANY
        if key not in ("Variable", "Next", "Comment"):
            return value
    return ANY


def rule_wants(rule):
    """What a rule of a Choice wants."""

    def member(key, value):
        if key == "Not":
            return rule_wants(value)
        if key in ("And", "Or"):
            return all_of(map(rule_wants, value))
        return text_wants("$", value, held(rule)) if key == "Variable" or key.endswith("Path") else ANY

    return all_of(member(key, value) for key, value in rule.items())


def selected(state, key, want):
    """What a filter of a state wants, where there is one."""
    if key not in state:
        return want
    return ANY if state[key] is None else path_wants("$", state[key], want)


def filled(state, key, want):
    """What a template of a state wants, where there is one."""
    return through("$", state[key], want) if key in state else want


def around(member_of, want):
    """What is wanted of the input in which a state places its result, or a catcher its error: what this is wanted of, without what is placed."""
    if "ResultPath" not in member_of or member_of["ResultPath"] == "$":
        return ANY
    if member_of["ResultPath"] is None or not isinstance(want, dict):
        return want
    return {key: value for key, value in want.items() if member_of["ResultPath"] != f"$.{key}"}


def states_of(machine):
    """The states at any depth, in document order."""
    for name, state in machine["States"].items():
        yield name, state
        for key, value in state.items():
            for body in value if key == "Branches" else [value] if key in ("Iterator", "ItemProcessor") else []:
                yield from states_of(body)


def machines_in(state):
    """The machines inside a state."""
    inner = state.get("ItemProcessor", state.get("Iterator"))
    return state.get("Branches", [] if inner is None else [inner])


def own_wants(state):
    """What members of a state want of its effective input."""
    wants = [all_of(map(rule_wants, value)) if key == "Choices" else ANY for key, value in state.items()]
    for key, leaf in [("SecondsPath", 1), ("TimestampPath", MOMENT), ("ErrorPath", ANY), ("CausePath", ANY)]:
        at = list(state).index(key) if key in state else None
        if at is not None:
            wants[at] = text_wants("$", state[key], leaf)
    return wants


class Wants:
    """What is wanted of the results of a definition's states."""

    def __init__(self, definition):
        self.inputs, self.results, self.outputs = {}, {}, {}
        last_first = list(states_of(definition))[::-1]
        for _ in range(4):
            for name, state in last_first:
                self.add(name, state)

    def output(self, name, state):
        if "Next" not in state and "Choices" not in state:
            return self.outputs.get(name, ANY)
        ways = [state.get("Next"), state.get("Default"), *(choice.get("Next") for choice in state.get("Choices", []))]
        return all_of(self.inputs.get(way, ANY) for way in ways)

    def effective(self, state, result):
        machines = [self.inputs.get(machine["StartAt"], ANY) for machine in machines_in(state)]
        if "Resource" in state:
            return filled(state, "Parameters", ANY)
        if "Branches" in state:
            return filled(state, "Parameters", all_of(machines))
        if machines:
            selector = "ItemSelector" if "ItemSelector" in state else "Parameters"
            if selector not in state:
                return selected(state, "ItemsPath", machines)
            items = [through("$$.Map.Item.Value", state[selector], machines[0])]
            return both(through("$", state[selector], machines[0]), selected(state, "ItemsPath", items))
        plain = ANY
        if "Result" not in state:
            plain = result
            for want in own_wants(state):
                plain = both(plain, want)
        return filled(state, "Parameters", plain)

    def add(self, name, state):
        after = selected(state, "OutputPath", self.output(name, state))
        placed = after
        if "ResultPath" in state:
            placed = ANY if state["ResultPath"] is None else part(state["ResultPath"], after)
        result = filled(state, "ResultSelector", placed)
        into = selected(state, "InputPath", self.effective(state, result))
        for number_of, machine in enumerate(machines_in(state)):
            self.outputs.update({inner: at_index(result, number_of) for inner in machine["States"]})
        kept = around(state, after)
        for catcher in state.get("Catch", []):
            kept = both(kept, around(catcher, self.inputs.get(catcher["Next"], ANY)))
        self.inputs[name] = both(kept, into)
        self.results[name] = result


def answers(definition):
    """The answer to each Task, by its name."""
    wants = Wants(definition).results
    tasks = [(name, state["Resource"]) for name, state in states_of(definition) if state["Type"] == "Task"]
    return {name: both(ANSWERS.get(resource, {}), wants[name]) for name, resource in tasks}
