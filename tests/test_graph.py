"""The graphs of definitions: what each language draws is what the definition says, whatever its names are; and what a run marks there."""
import glob
import json
import os
import re
import tempfile

from definitions import answer
from graphs import graph_of, named
from program import TOP, ProgramTest, answered, run_program, without_mending

LANGUAGES = ["mermaid", "dot"]

# Names that mean something in one of the languages, and some that look alike.
NAMES = ['"', "\\", "end", "a b", "a_b", "a_32_b", "<b>", "&amp;", "#35;", "%%", "style: x#1;", "x -->|y| z", "é", "😀", "`", "-", "'", "a\\nb", "\\N\\\\", "1. first", "- then", "a. b", "no\ufffe\uffff"]
NAMES += ["\u2028", "left\u202egpj\u200f\u2066", "next\x85line"]


def shown(name):
    """A name as a label shows it: a control, and what XML has not, is the replacement character."""
    return "".join("\ufffd" if ord(c) < 32 or 127 <= ord(c) <= 159 or c in "\ufffe\uffff" else c for c in name)


# The signs of comparisons, by what their names say between the kind of the values and `Path`.
SIGNS = {"Equals": "=", "LessThan": "<", "GreaterThan": ">", "LessThanEquals": "<=", "GreaterThanEquals": ">=", "Matches": "matches"}
KINDS = ["String", "Numeric", "Timestamp", "Boolean"]


def comparison(variable, name, value):
    """The text of a test of this name."""
    if name.startswith("Is"):
        return f"{variable} is {'' if value else 'not '}{name[2:].lower()}"
    relation = re.sub(f"^({'|'.join(KINDS)})", "", name)
    if relation.endswith("Path"):
        return f"{variable} {SIGNS[relation.removesuffix('Path')]} {value}"
    return f"{variable} {SIGNS[relation]} {json.dumps(value, ensure_ascii=False, separators=(',', ':'))}"


def condition(rule, beside=False):
    """The condition of a rule in short form; an Or of more than one stands in parentheses beside others of an And."""
    (name, value), *others = [(name, value) for name, value in rule.items() if name not in ("Comment", "Variable", "Next")]
    assert not others, rule
    if name == "Not":
        return f"not ({condition(value)})"
    if name in ("And", "Or"):
        many = len(value) > 1
        text = f" {name.lower()} ".join(condition(part, beside or many if name == "And" else beside and not many) for part in value)
        return f"({text})" if name == "Or" and beside and many else text
    return comparison(rule["Variable"], name, value)


def rule_label(rule):
    """The label of a rule's transition, as it is shown."""
    text = condition(rule)
    return shown(text[:60]) + ("..." if len(text) > 60 else "")


# Rules, and the labels of their transitions.
RULES = [
    ({"Variable": "$.total", "NumericGreaterThan": 1000}, "$.total > 1000"),
    ({"Variable": "$.kind", "StringEquals": "a"}, '$.kind = "a"'),
    ({"Variable": "$.name", "StringMatches": "x*"}, '$.name matches "x*"'),
    ({"Variable": "$.x", "IsPresent": True}, "$.x is present"),
    ({"Variable": "$.x", "IsNull": False}, "$.x is not null"),
    ({"Variable": "$.a", "NumericLessThanPath": "$.b"}, "$.a < $.b"),
    ({"Variable": "$.ok", "BooleanEquals": True}, "$.ok = true"),
    ({"Not": {"Variable": "$.x", "IsString": True}}, "not ($.x is string)"),
    ({"And": [{"Variable": "$.a", "NumericEquals": 1}, {"Variable": "$.b", "NumericEquals": 2}]}, "$.a = 1 and $.b = 2"),
    (
        {"And": [{"Or": [{"Variable": "$.a", "NumericEquals": 1}, {"Variable": "$.b", "NumericEquals": 2}]}, {"Variable": "$.c", "IsNull": True}]},
        "($.a = 1 or $.b = 2) and $.c is null",
    ),
    (
        {"Or": [{"And": [{"Variable": "$.a", "NumericEquals": 1}, {"Variable": "$.b", "NumericEquals": 2}]}, {"Variable": "$.c", "IsNull": True}]},
        "$.a = 1 and $.b = 2 or $.c is null",
    ),
    ({"And": [{"Or": [{"Variable": "$.a", "IsNull": True}, {"Variable": "$.b", "IsNull": True}]}]}, "$.a is null or $.b is null"),
    ({"Variable": "$.t", "TimestampLessThanEquals": "2024-01-01T00:00:00Z"}, '$.t <= "2024-01-01T00:00:00Z"'),
    ({"Variable": "$.x", "StringEquals": "a" * 53}, '$.x = "' + "a" * 53 + "..."),
    ({"Variable": "$.x", "StringEquals": "\U0001f600" * 52}, '$.x = "' + "\U0001f600" * 52 + '"'),
]


def drawn(definition, language):
    """The text of a graph."""
    with tempfile.NamedTemporaryFile(prefix="asl-test-") as file:
        file.write(definition.encode())
        file.flush()
        ran = run_program("graph", file.name, "--format", language)
    assert (ran.returncode, ran.stderr) == (0, ""), ran
    return ran.stdout


def bodies(state):
    """The machines inside a state, each with what its box tells."""
    inner = state.get("Iterator", state.get("ItemProcessor"))
    branches = [(f"branch {number}", branch) for number, branch in enumerate(state.get("Branches", []))]
    return branches + ([("each item", inner)] if inner else [])


def wanted(machine, around=(), states=None, edges=None):
    """The states of a machine by name, each with its type and the labels of the boxes around it, and its transitions."""
    states = {} if states is None else states
    edges = [] if edges is None else edges
    edges.append((around, "begin", machine["StartAt"]))
    for name, state in machine["States"].items():
        states[name] = (state["Type"] + (" - Retry" if "Retry" in state else ""), around)
        if "Next" in state:
            edges.append((name, None, state["Next"]))
        for rule in state.get("Choices", []):
            edges.append((name, rule_label(rule), rule["Next"]))
        if "Default" in state:
            edges.append((name, "Default", state["Default"]))
        if state.get("End") or state["Type"] in ("Succeed", "Fail"):
            edges.append((name, None, (around, "end")))
        for catcher in state.get("Catch", []):
            edges.append((name, "catch" + "".join(" " + shown(error) for error in catcher["ErrorEquals"]), catcher["Next"]))
        for told, body in bodies(state):
            inside = (*around, f"{shown(name)} - {told}")
            edges.append((name, "into", inside))
            wanted(body, inside, states, edges)
    return states, edges


class GraphTest(ProgramTest):
    def assert_drawn(self, definition):
        """Both languages draw the definition."""
        # (the canonical form leaves out what is absent, as "End": false)
        states, edges = wanted(json.loads(answer(definition)))
        for language in LANGUAGES:
            graph = graph_of(language, drawn(definition, language))
            around = {key: tuple(graph.boxes[box][0] for box in boxes) for key, (_, _, boxes) in graph.states.items()}
            marks = {key: tuple(graph.boxes[box][0] for box in boxes) for key, boxes in graph.marks.items()}
            came = {named(key[2:]): (kind, around[key]) for key, (label, kind, _) in graph.states.items() if label == shown(named(key[2:]))}
            self.assertEqual(came, states)

            ends = {key: (tuple(graph.boxes[box][0] for box in boxes), "end") for key, boxes in graph.ends.items()}
            # each machine has both marks
            self.assertEqual(sorted(marks.values()), sorted(boxes for boxes, _ in ends.values()))

            def end(key):
                return marks[key] if key in marks else ends[key] if key in ends else named(key[2:])

            came = [(end(a), "begin" if a in marks else label, end(b)) for a, label, b in graph.edges]
            self.assertEqual(sorted(map(repr, came)), sorted(map(repr, edges)))

    def test_the_examples(self):
        for path in glob.glob(f"{TOP}/examples/*/definition.json"):
            with self.subTest(path), open(path, encoding="utf-8") as file:
                self.assert_drawn(file.read())

    def test_names_of_any_characters(self):
        states = {name: {"Type": "Pass", "Next": follower} for name, follower in zip(NAMES, NAMES[1:] + ["last"])}
        states["last"] = {"Type": "Succeed"}
        self.assert_drawn(json.dumps({"StartAt": NAMES[0], "States": states}))

    def test_errors_of_any_characters(self):
        catchers = [{"ErrorEquals": [name, "E"], "Next": "S"} for name in NAMES]
        task = {"Type": "Task", "Resource": "r", "Retry": [{"ErrorEquals": ["E"]}], "Catch": catchers, "Next": "S"}
        self.assert_drawn(json.dumps({"StartAt": "T", "States": {"T": task, "S": {"Type": "Succeed"}}}))

    def labels_of(self, rules):
        """The labels of the transitions by these rules, the same in both languages."""
        choice = {"Type": "Choice", "Choices": [{**rule, "Next": "S"} for rule in rules], "Default": "S"}
        definition = json.dumps({"StartAt": "C", "States": {"C": choice, "S": {"Type": "Succeed"}}})
        self.assert_drawn(definition)
        came = [[label for _, label, _ in graph_of(language, drawn(definition, language)).edges] for language in LANGUAGES]
        self.assertEqual(*came)
        return [label for label in came[0] if label not in (None, "Default")]

    def test_conditions_of_rules(self):
        self.assertEqual(self.labels_of([rule for rule, _ in RULES]), [label for _, label in RULES])

    def test_each_test_of_a_rule(self):
        values = {"String": "a", "Numeric": 1.5, "Timestamp": "2024-01-01T00:00:00Z", "Boolean": False}
        relations = [relation for relation in SIGNS if relation != "Matches"]
        compared = [(kind, relation) for kind in KINDS for relation in (relations if kind != "Boolean" else ["Equals"])]
        rules = [{"Variable": "$.v", kind + relation: values[kind]} for kind, relation in compared]
        rules += [{"Variable": "$.v", kind + relation + "Path": "$.w"} for kind, relation in compared]
        rules += [{"Variable": "$.v", "StringMatches": "*"}]
        asked = ["IsNull", "IsPresent", "IsNumeric", "IsString", "IsBoolean", "IsTimestamp"]
        rules += [{"Variable": "$.v", name: value} for name in asked for value in (True, False)]
        self.assertEqual(len({name for rule in rules for name in rule} - {"Variable"}), 39)
        self.assertEqual(self.labels_of(rules), [rule_label(rule) for rule in rules])

    def test_values_of_any_characters(self):
        self.labels_of([{"Variable": "$.v", "StringEquals": name} for name in NAMES])

    def test_boxes_in_boxes(self):
        leaf = {"StartAt": "P", "States": {"P": {"Type": "Pass", "End": True}}}
        inner = {"StartAt": "M", "States": {"M": {"Type": "Map", "Iterator": leaf, "End": True}}}
        other = {"StartAt": "N", "States": {"N": {"Type": "Map", "ItemProcessor": {"StartAt": "F", "States": {"F": {"Type": "Fail"}}}, "End": True}}}
        self.assert_drawn(json.dumps({"StartAt": "L", "States": {"L": {"Type": "Parallel", "Branches": [inner, other], "End": True}}}))

    def test_a_faulty_definition_is_refused(self):
        ran = run_program("graph", f"{TOP}/examples/refused.json")
        self.assertEqual((ran.returncode, ran.stdout, without_mending(ran.stderr)), (2, "", "fault: definition: F10 NoTarget /States/A/Next\n"))

    def test_a_file_that_is_not_there(self):
        ran = run_program("graph", "nowhere.json", "--format", "dot")
        self.assertEqual((ran.returncode, ran.stdout, ran.stderr), (2, "", "fault: file nowhere.json\n"))

    def test_mermaid_is_the_default(self):
        path = os.path.join(TOP, "examples", "hello", "definition.json")
        self.assertEqual(run_program("graph", path).stdout, run_program("graph", path, "--format", "mermaid").stdout)
        self.assertEqual(
            run_program("graph", path).stdout,
            'flowchart TD\nclassDef fail stroke:#c00\nclassDef succeed stroke:#080\ni((" "))\ne(((" ")))\ni --> s_P\n'
            's_P["P<br/>Pass"]\ns_P --> s_S\ns_S["S<br/>Succeed"]:::succeed\ns_S --> e\n',
        )


    def test_markdown_is_mermaid_in_a_block(self):
        folder = os.path.join(TOP, "examples", "polling")
        run = ["--run", f"{folder}/mocks.json", "polling#failed", f"{folder}/input.json"]
        for words in ([f"{folder}/definition.json"], [f"{folder}/definition.json", *run]):
            ran = run_program("graph", *words, "--format", "markdown")
            self.assertEqual((ran.returncode, ran.stderr), (0, ""))
            self.assertEqual(ran.stdout, "```mermaid\n" + run_program("graph", *words).stdout + "```\n")


def entered(history):
    """The names of the states that a history enters, each once."""
    names = [json.JSONDecoder().raw_decode(found[1])[0] for found in re.finditer(r"^[0-9]+ [0-9]+ \S+ \S+ [A-Za-z]+StateEntered (.*)$", history, re.M)]
    return list(dict.fromkeys(names))


def passed(history):
    """By a history the pairs of states of which the second was entered from the first, and the states that were left without that."""
    events = {}
    for line in history.split("\n"):
        if found := re.match(r"([0-9]+) ([0-9]+) \S+ \S+ ([A-Za-z]+) (.*)$", line):
            events[found[1]] = (found[2], found[3], json.JSONDecoder().raw_decode(found[4])[0])
    pairs, left = set(), {number for number, (_, kind, _) in events.items() if kind.endswith("StateExited")}
    for before, kind, name in events.values():
        if kind.endswith("StateEntered") and before in left:
            pairs.add((events[before][2], name))
            left.remove(before)
    return pairs, {events[number][2] for number in left}


def ended(history):
    """What a graph marks as the end of the run of a history: the mark where the machine ends, or the state in which it failed."""
    if re.search(r"^status SUCCEEDED ", history, re.M):
        return [("e", "Succeed")]
    told = re.findall(r"^[0-9]+ [0-9]+ \S+ \S+ [A-Za-z]+ (.*)$", history, re.M)
    names = [name for name in (json.JSONDecoder().raw_decode(text)[0] for text in told) if name]
    word = "".join(c if c.isascii() and c.isalnum() else f"_{ord(c)}_" for c in names[-1])
    return [(f"s_{word}", "Fail")] if re.search(r"^status FAILED ", history, re.M) else []


class MarkedTest(ProgramTest):
    def assert_passed(self, graph, history):
        """The transitions are thick that the history tells."""
        pairs, left = passed(history)
        thick = {(named(a[2:]), named(b[2:])) for a, _, b in graph.thick if a not in graph.marks}
        self.assertLessEqual(pairs, thick)
        self.assertLessEqual({a for a, _ in thick - pairs}, left)
        begun = {named(b[2:]) for a, _, b in graph.thick if a in graph.marks}
        self.assertEqual(begun, {named(b[2:]) for a, _, b in graph.edges if a in graph.marks} & set(entered(history)))

    def assert_marked(self, *words, ends=(0, 1)):
        """In both languages the states and the transitions are marked that the run of these words enters and takes, and nothing else is
        otherwise than without marks."""
        definition, *others = words
        history = run_program("run", *words)
        self.assertIn(history.returncode, ends)
        for language in LANGUAGES:
            ran = run_program("graph", definition, "--run", *others, "--format", language)
            self.assertEqual((ran.returncode, ran.stderr), (0, ""))
            graph = graph_of(language, ran.stdout)
            self.assertEqual([named(key[2:]) for key in graph.taken], entered(history.stdout))
            self.assert_passed(graph, history.stdout)
            self.assertEqual(graph.ended, ended(history.stdout))
            bare = run_program("graph", definition, "--format", language).stdout
            self.assertEqual(graph_of(language, bare), graph._replace(taken=[], thick=[], ended=[]))

    def on_files(self, definition, mocks, given):
        """The names of the files of these texts, which are there till the test ends."""
        room = self.enterContext(tempfile.TemporaryDirectory(prefix="asl-test-"))
        names = []
        for name, text in [("definition", definition), ("mocks", mocks), ("input", given)]:
            names.append(os.path.join(room, name))
            with open(names[-1], "w", encoding="utf-8") as file:
                file.write(text)
        return names

    def test_the_examples(self):
        for path in glob.glob(f"{TOP}/examples/*/*.driven.txt"):
            folder, case = os.path.dirname(path), os.path.basename(path).removesuffix(".driven.txt")
            given = f"{folder}/{case}.input.json" if os.path.exists(f"{folder}/{case}.input.json") else f"{folder}/input.json"
            with self.subTest(path):
                self.assert_marked(f"{folder}/definition.json", f"{folder}/mocks.json", f"{os.path.basename(folder)}#{case}", given)

    def test_names_of_any_characters(self):
        states = {name: {"Type": "Pass", "Next": follower} for name, follower in zip(NAMES, NAMES[1:] + ["last"])}
        states["last"] = {"Type": "Succeed"}
        definition, mocks, given = self.on_files(json.dumps({"StartAt": NAMES[0], "States": states}), "{}", "{}")
        self.assert_marked(definition, mocks, "M", given)

    def test_a_state_is_marked_once(self):
        # The Task is retried and the loop goes round twice; the Fail isn't entered.
        states = {
            "W": {"Type": "Task", "Resource": "r", "Retry": [{"ErrorEquals": ["E"]}], "Next": "C"},
            "C": {"Type": "Choice", "Choices": [{"Variable": "$.n", "NumericEquals": 2, "Next": "S"}], "Default": "W"},
            "S": {"Type": "Succeed"},
            "F": {"Type": "Fail"},
        }
        mocks = answered('"0":{"Throw":{"Error":"E"}},"1":{"Return":{"n":1}},"2":{"Return":{"n":2}}')
        definition, mocks, given = self.on_files(json.dumps({"StartAt": "W", "States": states}), mocks, "{}")
        ran = run_program("graph", definition, "--run", mocks, "M#c", given)
        self.assertEqual(ran.stdout[-len(marks := "classDef taken stroke-width:4px\nclass s_W taken\nclass s_C taken\nclass s_S taken\nclass e succeed\n"):], marks)
        dot = run_program("graph", definition, "--run", mocks, "M#c", given, "--format", "dot")
        self.assertTrue(dot.stdout.endswith("s_W [penwidth=4];\ns_C [penwidth=4];\ns_S [penwidth=4];\ne [color=green4];\n}\n"))

    def thick_of(self, definition, mocks, chosen, given):
        """The transitions that a run marks, the same in both languages."""
        came = []
        for language in LANGUAGES:
            ran = run_program("graph", definition, "--run", mocks, chosen, given, "--format", language)
            self.assertEqual((ran.returncode, ran.stderr), (0, ""))
            came.append([(named(a[2:]) if a != "i" else "", label, named(b[2:])) for a, label, b in graph_of(language, ran.stdout).thick])
        self.assertEqual(*came)
        return came[0]

    def test_what_decided_is_marked(self):
        # Rule 1, the Default and catcher 1 lead where others lead too.
        task = {"Type": "Task", "Resource": "r", "Next": "C"}
        rules = [{"Variable": "$.n", "NumericEquals": n, "Next": "D"} for n in (1, 2)]
        catchers = [{"ErrorEquals": [error], "Next": "S", "ResultPath": "$.e"} for error in ("A", "B", "States.ALL")]
        states = {
            "C": {"Type": "Choice", "Choices": rules, "Default": "D"},
            "D": {**task, "Catch": catchers, "Next": "S"},
            "S": {"Type": "Choice", "Choices": [{"Variable": "$.e", "IsPresent": True, "Next": "E"}], "Default": "C"},
            "E": {"Type": "Succeed"},
        }
        mocks = answered('"0":{"Return":{"n":7}},"1":{"Throw":{"Error":"B"}}').replace('"W"', '"D"')
        definition, mocks, given = self.on_files(json.dumps({"StartAt": "C", "States": states}), mocks, '{"n":2}')
        self.assertEqual(
            self.thick_of(definition, mocks, "M#c", given),
            [
                ("", None, "C"),
                ("C", "$.n = 2", "D"),
                ("C", "Default", "D"),
                ("D", None, "S"),
                ("D", "catch B", "S"),
                ("S", "$.e is present", "E"),
                ("S", "Default", "C"),
            ],
        )

    def test_a_state_that_is_not_left_marks_no_transition(self):
        # The Wait isn't over when the time of the execution is; the Pass fails.
        wait = {"Type": "Wait", "Seconds": 9, "Next": "S"}
        definition, mocks, given = self.on_files(json.dumps({"StartAt": "W", "TimeoutSeconds": 5, "States": {"W": wait, "S": {"Type": "Succeed"}}}), "{}", "{}")
        self.assertEqual(self.thick_of(definition, mocks, "M", given), [("", None, "W")])
        passing = {"Type": "Pass", "OutputPath": "$.x", "Next": "S"}
        definition, mocks, given = self.on_files(json.dumps({"StartAt": "P", "States": {"P": passing, "S": {"Type": "Succeed"}}}), "{}", "{}")
        self.assertEqual(self.thick_of(definition, mocks, "M", given), [("", None, "P")])

    def test_a_run_that_fails_inside_a_state(self):
        # Its last event of a state is that of the Parallel.
        branch = {"StartAt": "F", "States": {"F": {"Type": "Fail", "Error": "E"}}}
        definition, mocks, given = self.on_files(json.dumps({"StartAt": "P", "States": {"P": {"Type": "Parallel", "Branches": [branch], "End": True}}}), "{}", "{}")
        self.assert_marked(definition, mocks, "M", given)
        ran = run_program("graph", definition, "--run", mocks, "M", given)
        self.assertEqual(graph_of("mermaid", ran.stdout).ended, [("s_P", "Fail")])

    def test_a_run_that_does_not_end(self):
        definition, mocks, given = self.on_files('{"StartAt":"P","States":{"P":{"Type":"Pass","Next":"P"},"Q":{"Type":"Succeed"}}}', "{}", "{}")
        ran = run_program("graph", definition, "--run", mocks, "M", given)
        self.assertEqual((ran.returncode, ran.stdout.splitlines()[-1]), (0, "class s_P taken"))

    def test_faults_are_those_of_the_run(self):
        good = ('{"StartAt":"P","States":{"P":{"Type":"Succeed"}}}', "{}", "{}")
        for place, text in [(0, "{"), (0, '{"StartAt":"P","States":{}}'), (1, "["), (1, "[]"), (2, "")]:
            texts = list(good)
            texts[place] = text
            definition, mocks, given = self.on_files(*texts)
            told = run_program("run", definition, mocks, "M", given)
            ran = run_program("graph", definition, "--run", mocks, "M", given)
            self.assertEqual((ran.returncode, ran.stdout, ran.stderr), (2, "", told.stderr), text)
        definition, mocks, given = self.on_files(*good)
        lacking = [("/nowhere", mocks, "M", given), (definition, "/nowhere", "M", given), (definition, mocks, "M", "/nowhere")]
        for words in [*lacking, (definition, mocks, "M#c", given)]:
            told = run_program("run", *words)
            ran = run_program("graph", words[0], "--run", *words[1:])
            self.assertEqual((ran.returncode, ran.stdout, ran.stderr), (2, "", told.stderr), words)

    def test_options_stand_for_words(self):
        folder = f"{TOP}/examples/hello"
        words = [f"{folder}/definition.json", "--run", f"{folder}/mocks.json", "M", f"{folder}/input.json"]
        usual = run_program("graph", *words)
        self.assertEqual((usual.returncode, usual.stdout.splitlines()[-1]), (0, "class e succeed"))
        for other in [
            [words[0], "--mocks", words[2], "--case", "M", "--input", words[4], "--run"],
            [words[0], words[2], "M", words[4], "--run"],
            [words[0], "--run", words[2], "M", "--input", words[4]],
        ]:
            self.assertEqual(run_program("graph", *other).stdout, usual.stdout, other)

    def test_words_that_are_refused(self):
        folder = f"{TOP}/examples/hello"
        definition, mocks, given = (f"{folder}/{name}.json" for name in ("definition", "mocks", "input"))
        for words in [
            ["--run"],
            ["--run", mocks, "M"],
            [mocks, "M", given],
            ["--mocks", mocks],
            ["--run", mocks, "M", given, "--input", given],
            ["--run", "--mocks", mocks, "--case", "M"],
        ]:
            ran = run_program("graph", definition, *words)
            self.assertEqual((ran.returncode, ran.stdout), (2, ""), words)
            self.assertIn("Usage: asl graph", ran.stderr)
