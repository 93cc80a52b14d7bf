"""Command lines: what each command prints and tells, and its status."""
import glob
import json
import os
import resource
import shutil
import signal
import subprocess
import tempfile

from program import PROGRAM, TOP, ProgramTest, run_program, without_mending

DEFINITION = '{"StartAt":"P","States":{"P":{"Type":"Pass","Result":7,"ResultPath":"$.a.b","Next":"S"},"S":{"Type":"Succeed"}}}'

TWO_STEPS = "/ 2024-01-01T00:00:00Z\n/ 2024-01-01T00:00:00Z\n"

# What a run of the definition prints where no file names its steps.
DRIVEN = """\
1 0 1970-01-01T00:00:00.000Z / ExecutionStarted "" {}
2 1 1970-01-01T00:00:00.000Z / PassStateEntered "P" {}
3 2 1970-01-01T00:00:00.000Z / PassStateExited "P" {"a":{"b":7}}
4 3 1970-01-01T00:00:00.000Z / SucceedStateEntered "S" {"a":{"b":7}}
5 4 1970-01-01T00:00:00.000Z / SucceedStateExited "S" {"a":{"b":7}}
6 5 1970-01-01T00:00:00.000Z / ExecutionSucceeded "" {"a":{"b":7}}
status SUCCEEDED {"a":{"b":7}}
"""

STEPPED = "step / ok\nstep / ok\n" + DRIVEN.replace("1970", "2024")

# A mock file with the case `c` of `M`.
MOCKS = '{"StateMachines":{"M":{"TestCases":{"c":{"T":"r"}}}},"MockedResponses":{"r":{"0":{"Return":1}}}}'

# A script with a command of each kind, and what `debug` prints for it.
SCRIPT = """\
break "S"
break "T"
step / 2024-01-01T00:00:00Z
step / 2023-01-01T00:00:00Z
show /
resume /
resume /
step /0 2024-01-01T00:00:00Z
step / 2024-01-01T00:00:00Z
back 3
back 001
clear "S"
clear "S"
show /1
"""

DEBUGGED = """\
set
NoSuchState
ok
paused "S"
shown ["Ready","S",{"a":{"b":7}}]
resumed
NotPaused
S2 NoSuchPlace
ok
TooFar
back 1
cleared
NoSuchState
NoSuchPlace
1 0 2024-01-01T00:00:00.000Z / ExecutionStarted "" {}
2 1 2024-01-01T00:00:00.000Z / PassStateEntered "P" {}
3 2 2024-01-01T00:00:00.000Z / PassStateExited "P" {"a":{"b":7}}
status RUNNING
"""

# Scripts, and the number of the first line that is no command.
BAD_SCRIPTS = [
    ("jump\n", 1),
    ("step / 2024-01-01T00:00:00Z\njump", 2),
    ("\n", 1),
    ("show /\n\n", 2),
    ("show /\r\n", 1),
    ("show  /", 1),
    ("show / ", 1),
    ("show", 1),
    ("Show /", 1),
    ("show 1", 1),
    ("resume /01", 1),
    ("step /", 1),
    ("step / 2024-01-01", 1),
    ("break S", 1),
    ('break  "S"', 1),
    ('break "S" ', 1),
    ('break "S', 1),
    ("break 5", 1),
    ("clear []", 1),
    ("back", 1),
    ("back ", 1),
    ("back -1", 1),
    ("back +1", 1),
    ("back 1.0", 1),
    ("back 1000000000", 1),
]

# Definitions, and what `check` and `print` print or tell of each.
JUDGED = [
    (DEFINITION, "ok\n", DEFINITION + "\n"),
    (' {"States":{"A":{"End":true,"Type":"Pass"}},"StartAt":"A"}\n', "ok\n", '{"StartAt":"A","States":{"A":{"Type":"Pass","End":true}}}\n'),
    ("[]", "fault: definition: F2 NotObject\n", None),
    ("{", "fault: definition: F1 Json J1 Syntax 1\n", None),
    ("", "fault: definition: F1 Json J1 Syntax 0\n", None),
    ('{"StartAt":"A"}', "fault: definition: F3 Missing /States\n", None),
    (
        '{"StartAt":"A","States":{"A":{"Type":"Task","Resource":"r","Next":"X"}}}',
        "fault: definition: F10 NoTarget /States/A/Next\n",
        None,
    ),
]

# Mock files, what is chosen, and the line that is told.
NO_CASES = [
    ("[", "M", "fault: mocks: M1 Json J1 Syntax 1\n"),
    ("[]", "M", "fault: mocks: M2 Shape\n"),
    ('{"MockedResponses":{"r":{"x":{"Return":1}}}}', "M#c", "fault: mocks: M3 Key /MockedResponses/r/x\n"),
    ('{"MockedResponses":{"r":{"0":{"Return":1},"00":{"Return":1}}}}', "M#c", "fault: mocks: M4 Overlap /MockedResponses/r/00\n"),
    ('{"StateMachines":{"M":{"TestCases":{"c":{"T":"r"}}}}}', "M", "fault: mocks: M5 NoResponse /StateMachines/M/TestCases/c/T\n"),
    (MOCKS, "Other#None", "fault: case: M7 NoMachine\n"),
    (MOCKS, "M#None", "fault: case: M8 NoCase\n"),
    (MOCKS, "M#c#", "fault: case: M8 NoCase\n"),
]

# Words, and what the help for them says.
HELPS = [
    (["--help"], "Usage: asl <COMMAND>"),
    (["check", "--help"], "Usage: asl check [OPTIONS] [DEF]"),
    (["print", "--help"], "Usage: asl print [OPTIONS] <DEF>"),
    (["upgrade", "--help"], "Usage: asl upgrade [OPTIONS] <DEF>"),
    (["help"], "Usage: asl <COMMAND>"),
    (["run", "--help"], "Usage: asl run [OPTIONS] [DEF] [MOCKS] [CHOSEN] [INPUT]"),
    (["debug", "--help"], "Usage: asl debug [OPTIONS] [DEF] [MOCKS] [CHOSEN] [INPUT] [SCRIPT]"),
    (["--version"], "asl "),
]

# Wrong words, what is told of them, and whether the usage is (clap leaves it out where an option has no value).
WRONG = [
    ([], "requires a subcommand", True),
    (["check", "machine", "other"], "unexpected argument 'other'", True),
    (["run"], "not provided:\n  <DEF>\n  <MOCKS>\n  <CHOSEN>\n  <INPUT>", True),
    (["print"], "<DEF>", True),
    (["upgrade"], "<DEF>", True),
    (["upgrade", "machine", "other"], "unexpected argument 'other'", True),
    (["walk"], "unrecognized subcommand 'walk'", True),
    (["run", "machine", "mocks", "M", "--steps", "steps"], "<INPUT>", True),
    (["run", "machine", "--case", "M"], "not provided:\n  <MOCKS>\n  <INPUT>\n\nUsage: asl run [OPTIONS] [DEF]", True),
    (["debug", "machine", "mocks", "M", "input", "script", "--script", "other"], "'[SCRIPT]' cannot be used with '--script <FILE>'", True),
    (["debug", "machine", "mocks", "M", "input", "script", "--format", "tree"], "a script is told as text", True),
    (["graph", "machine", "mocks"], "not provided:\n  --run\n\nUsage: asl graph [OPTIONS] <DEF>", True),
    (["graph", "machine", "--run", "--case", "M"], "not provided:\n  <MOCKS>\n  <INPUT>", True),
    (["test", "machine", "mocks", "expect", "--shard", "0/2"], "a shard is I/N", True),
    (["run", "machine", "mocks", "M", "input", "--format", "jsn"], "a similar value exists: 'json'", False),
    (["run", "machine", "mocks", "M", "input", "--steps"], "a value is required for '--steps <FILE>'", False),
    (["debug"], "<DEF>", True),
    (["debug", "machine", "mocks", "M"], "<INPUT>", True),
    (["debug", "machine", "mocks", "M", "input", "script", "other"], "unexpected argument 'other'", True),
    (["debug", "machine", "mocks", "M", "input", "script", "--steps", "steps"], "unexpected argument '--steps'", True),
]


# Words with characters that don't show, and how these are told.
HIDDEN = [
    (["wa\x1b]0;title\x07lk"], "'wa\\u001b]0;title\\u0007lk'"),
    (["check", "machine", "\x1b[31mred"], "'\\u001b[31mred'"),
    (["check", "machine", "\u202ethgir"], "'\\u202ethgir'"),
    (["run", "machine", "mocks", "M", "input", "--format", "\x9bjson"], "'\\u009bjson'"),
    (["test", "machine", "mocks", "expect", "--workers", "1\x7f"], "'1\\u007f'"),
    (["walk\nfault: forged"], "'walk\\u000afault: forged'"),
]


class CommandTest(ProgramTest):
    def assert_ran(self, words, status, out, err):
        ran = run_program(*words)
        self.assertEqual((ran.returncode, ran.stdout, without_mending(ran.stderr)), (status, out, err))

    def setUp(self):
        room = tempfile.TemporaryDirectory(prefix="asl-test-")
        self.addCleanup(room.cleanup)
        self.room = room.name
        self.files = [self.file("machine", DEFINITION), self.file("mocks", MOCKS), "M", self.file("input", "{}")]
        self.steps = ["--steps", self.file("steps", TWO_STEPS)]
        self.script = self.file("script", SCRIPT)

    def file(self, name, text):
        path = os.path.join(self.room, name)
        with open(path, "w", encoding="utf-8") as out:
            out.write(text)
        return path

    def test_a_run_is_printed(self):
        self.assert_ran(["run", *self.files], 0, DRIVEN, "")
        self.assert_ran(["run", *self.files, *self.steps], 0, STEPPED, "")
        self.assert_ran(["run", *self.files[:2], "M#c", self.files[3], *self.steps], 0, STEPPED, "")

    def test_an_execution_that_goes_on_is_1(self):
        self.file("steps", "")
        out = '1 0 1970-01-01T00:00:00.000Z / ExecutionStarted "" {}\nstatus RUNNING\n'
        self.assert_ran(["run", *self.files, *self.steps], 1, out, "")

    def test_a_run_takes_ten_thousand_steps_by_itself(self):
        loop = '{"StartAt":"P","States":{"P":{"Type":"Pass","Next":"P"}}}'
        self.assert_ends(self.told(loop), 20_002, "status RUNNING")

    def test_a_run_takes_as_many_steps_as_are_asked_for(self):
        loop = self.file("machine", '{"StartAt":"P","States":{"P":{"Type":"Pass","Next":"P"}}}')
        for most, events in [("1", 3), ("7", 15), ("12000", 24_001), ("12495", 24_991)]:
            for more in ([], ["--format", "json"]):
                ran = run_program("run", loop, *self.files[1:], "--max-steps", most, *more)
                self.assertEqual((ran.returncode, len(ran.stdout.splitlines())), (1, events + (not more)), most)
                self.assertEqual(ran.stderr, f"note: the execution still runs: {most} steps were taken, and --max-steps takes more\n")
        # The history is full behind 24,992 events.
        ran = run_program("run", loop, *self.files[1:], "--max-steps", "1000000")
        self.assertEqual((ran.returncode, len(ran.stdout.splitlines()), ran.stdout.splitlines()[-1]), (1, 24_994, "status RUNNING"))
        self.assertEqual(ran.stderr, "note: the execution still runs, and takes no more steps: its history is full\n")
        # A run that is over is so.
        over = self.file("machine", '{"StartAt":"P","States":{"P":{"Type":"Pass","End":true}}}')
        self.assertEqual(run_program("run", over, *self.files[1:], "--max-steps", "1").stderr, "")
        # A file of steps says itself how many there are.
        self.assertEqual(run_program("run", loop, *self.files[1:], "--steps", self.file("none", "")).stderr, "")
        ran = run_program("run", loop, *self.files[1:], "--steps", self.file("none", ""), "--max-steps", "7")
        self.assertEqual((ran.returncode, ran.stdout), (2, ""))
        self.assertIn("the argument '--steps <FILE>' cannot be used with '--max-steps <N>'", ran.stderr)
        for word in ("0", "1000001", "x", ""):
            self.assertEqual(run_program("run", loop, *self.files[1:], "--max-steps", word).returncode, 2, word)

    def test_a_region_is_named_for_the_format_of_the_service(self):
        for words in ([], ["--format", "json"], ["--format", "text"]):
            ran = run_program("run", *self.files, "--region", "eu-west-1", *words)
            self.assertEqual((ran.returncode, ran.stdout), (2, ""), words)
            self.assertIn("the argument '--region <NAME>' is for --format aws\n", ran.stderr)

    def test_definitions_are_judged_and_printed(self):
        for text, judged, printed in JUDGED:
            with self.subTest(text):
                self.file("machine", text)
                for command, told in [("check", judged), ("print", printed or judged), ("upgrade", printed or judged)]:
                    self.assert_ran([command, self.files[0]], 0 if printed else 2, told if printed else "", "" if printed else told)

    def test_what_is_printed_for_a_person_is_the_same_value(self):
        empty = self.file("empty", '{"States":{"A":{"Result":{"a":[],"b":{},"c":["\\u000b",{"d":1.50}]},"Type":"Pass","End":true}},"StartAt":"A"}')
        for definition in [empty, *sorted(glob.glob(f"{TOP}/examples/*/definition.json"))]:
            for command in (["print"], ["upgrade"], ["mocks"]):
                with self.subTest(definition, command=command):
                    compact, pretty = (run_program(*command, definition, *more).stdout for more in ([], ["--pretty"]))
                    self.assertEqual(pretty.replace("1.50", "1.5"), json.dumps(json.loads(compact), indent=2, ensure_ascii=False) + "\n")
                    if command != ["mocks"]:
                        self.assert_ran(["print", self.file("pretty", pretty)], 0, compact, "")
        self.assert_ran(["print", "--pretty", self.file("faulty", "{}")], 2, "", "fault: definition: F3 Missing /StartAt\n")

    def test_a_script_is_carried_out(self):
        self.assert_ran(["debug", *self.files, self.script], 0, DEBUGGED, "")
        self.assert_ran(["debug", *self.files[:2], "M#c", self.files[3], self.script], 0, DEBUGGED, "")

    def test_a_script_of_no_commands(self):
        # Nothing is run, and the execution starts at the epoch.
        out = '1 0 1970-01-01T00:00:00.000Z / ExecutionStarted "" {}\nstatus RUNNING\n'
        self.assert_ran(["debug", *self.files, self.file("empty", "")], 0, out, "")

    def test_debugging_is_0_whatever_the_execution_did(self):
        step = "step / 2024-01-01T00:00:00Z\n"
        self.file("script", step + step)
        self.assert_ran(["debug", *self.files, self.script], 0, "ok\nok\n" + DRIVEN.replace("1970", "2024"), "")
        self.file("machine", '{"StartAt":"F","States":{"F":{"Type":"Fail","Error":"E"}}}')
        ran = run_program("debug", *self.files, self.script)
        self.assertEqual((ran.returncode, ran.stdout.splitlines()[:2], ran.stdout.splitlines()[-1]), (0, ["ok", "S1 Over"], 'status FAILED {"Error":"E"}'))

    def test_a_line_that_is_no_command_is_refused(self):
        for script, line in BAD_SCRIPTS:
            with self.subTest(script):
                self.file("script", script)
                self.assert_ran(["debug", *self.files, self.script], 2, "", f"fault: script: E2 ScriptLine {line}\n")

    def test_debugging_is_refused_for_the_first_text(self):
        # One text after another is mended, in the order in which they are judged.
        self.file("script", "jump")
        self.file("input", "")
        self.file("mocks", "[")
        self.file("machine", "{")
        chosen = "M#none"
        for told, name, text in [
            ("definition: F1 Json J1 Syntax 1", "machine", DEFINITION),
            ("mocks: M1 Json J1 Syntax 1", "mocks", MOCKS),
            ("case: M8 NoCase", None, "M"),
            ("input: J1 Syntax 0", "input", "{}"),
            ("script: E2 ScriptLine 1", "script", SCRIPT),
        ]:
            self.assert_ran(["debug", *self.files[:2], chosen, self.files[3], self.script], 2, "", f"fault: {told}\n")
            if name:
                self.file(name, text)
            else:
                chosen = text
        self.assert_ran(["debug", *self.files, self.script], 0, DEBUGGED, "")

    def test_a_file_that_cannot_be_read_is_refused(self):
        none = os.path.join(self.room, "none")
        for at in (0, 1, 3):
            self.assert_ran(["run", *self.files[:at], none, *self.files[at + 1 :]], 2, "", f"fault: file {none}\n")
        self.assert_ran(["run", *self.files, "--steps", none], 2, "", f"fault: file {none}\n")
        for at in (0, 1, 3, 4):
            words = [*self.files, self.script]
            self.assert_ran(["debug", *words[:at], none, *words[at + 1 :]], 2, "", f"fault: file {none}\n")
        self.assert_ran(["check", none], 2, "", f"fault: file {none}\n")
        self.assert_ran(["upgrade", none], 2, "", f"fault: file {none}\n")

    def test_why_a_file_cannot_be_read_is_told(self):
        self.assert_ran(["check", self.room], 2, "", f"fault: file {self.room}: it is a folder\n")
        below = os.path.join(self.files[0], "x")
        self.assert_ran(["check", below], 2, "", f"fault: file {below}: a read failed\n")

    def test_a_file_without_leave_to_read_it_is_refused(self):
        # The system lets root read every file: nobody tries it, with a copy of the program that anybody may start.
        os.chmod(self.room, 0o755)
        program, secret = os.path.join(self.room, "asl"), self.file("secret", DEFINITION)
        shutil.copy(PROGRAM, program)
        os.chmod(program, 0o755)
        os.chmod(secret, 0)
        who = {"user": 65534, "group": 65534, "extra_groups": []} if os.geteuid() == 0 else {}
        ran = subprocess.run([program, "check", secret], stdin=subprocess.DEVNULL, capture_output=True, encoding="utf-8", timeout=60, cwd="/", **who)
        self.assertEqual((ran.returncode, ran.stdout, ran.stderr), (2, "", f"fault: file {secret}: permission denied\n"))

    def test_names_are_told_on_one_line_that_a_terminal_shows(self):
        for name, shown in [
            ("no\nsuch", "no\\u000asuch"),
            ("\x1b[2Jno", "\\u001b[2Jno"),
            ("a\u202eb\u2066c\u200f\u061c", "a\\u202eb\\u2066c\\u200f\\u061c"),
            ("\x7f\x80\x9f\xa0", "\\u007f\\u0080\\u009f\xa0"),
            ("\u2028\u2029\u202f", "\\u2028\\u2029\u202f"),
            (40 * "\U0001f600", 40 * "\U0001f600"),
        ]:
            self.assert_ran(["check", f"/{name}"], 2, "", f"fault: file /{shown}\n")
            state = json.dumps(name)
            self.file("machine", f'{{"StartAt":{state},"States":{{{state}:{{"Type":"Pass"}}}}}}')
            self.assert_ran(["check", self.files[0]], 2, "", f"fault: definition: F9 Neither /States/{shown.replace('~', '~0')}\n")

    def test_a_hyphen_is_standard_input(self):
        words = [*self.files, *self.steps]
        for at, text in [(0, DEFINITION), (1, MOCKS), (3, "{}"), (5, TWO_STEPS)]:
            given = [*words[:at], "-", *words[at + 1 :]]
            ran = subprocess.run([PROGRAM, "run", *given], input=text, capture_output=True, encoding="utf-8", timeout=60)
            self.assertEqual((ran.returncode, ran.stdout, ran.stderr), (0, STEPPED, ""))
        ran = subprocess.run([PROGRAM, "check", "-"], input=DEFINITION, capture_output=True, encoding="utf-8", timeout=60)
        self.assertEqual((ran.returncode, ran.stdout, ran.stderr), (0, "ok\n", ""))
        ran = subprocess.run([PROGRAM, "check", "-"], input="{", capture_output=True, encoding="utf-8", timeout=60)
        self.assertEqual((ran.returncode, ran.stdout, without_mending(ran.stderr)), (2, "", "fault: definition: F1 Json J1 Syntax 1\n"))
        ran = subprocess.run([PROGRAM, "check", "-"], input=16_777_217 * " ", capture_output=True, encoding="utf-8", timeout=60)
        self.assertEqual((ran.returncode, ran.stdout, ran.stderr), (2, "", "fault: file -: it has more than 16777216 bytes\n"))

    def test_a_text_in_place_of_a_name_is_read_itself(self):
        words = [*self.files, *self.steps]
        for at, text in [(0, DEFINITION), (1, MOCKS), (3, "{}")]:
            self.assert_ran(["run", *words[:at], text, *words[at + 1 :]], 0, STEPPED, "")
        self.assert_ran(["run", *self.files[:3], "--input", "{}", *self.steps], 0, STEPPED, "")
        ran = run_program("run", *self.files[:3], '{"n":}')
        self.assertEqual((ran.returncode, ran.stdout), (2, ""))
        self.assertTrue(ran.stderr.startswith('fault: input: J1 Syntax 5\n{"n":}:1:6: '), ran.stderr)
        for word in ('"text"', "[1,2]"):
            driven = run_program("run", *self.files[:3], word)
            self.file("given", word)
            self.assertEqual(driven.stdout, run_program("run", *self.files[:3], f"{self.room}/given").stdout)

    def test_standard_input_is_read_once(self):
        ran = subprocess.run([PROGRAM, "run", "-", "-", *self.files[2:]], input=DEFINITION, capture_output=True, encoding="utf-8", timeout=60)
        self.assertEqual((ran.returncode, ran.stdout, ran.stderr), (2, "", "fault: file -: standard input was read before\n"))

    def test_options_stand_for_words(self):
        definition, mocks, chosen, given = self.files
        options = ["--mocks", mocks, "--case", chosen, "--input", given]
        wanted = 0, STEPPED, ""
        self.assert_ran(["run", definition, *options, *self.steps], *wanted)
        self.assert_ran(["run", *options, definition, *self.steps], *wanted)
        self.assert_ran(["run", definition, mocks, *options[2:], *self.steps], *wanted)
        self.assert_ran(["run", definition, mocks, chosen, *options[4:], *self.steps], *wanted)
        self.assert_ran(["debug", definition, *options, "--script", self.script], 0, DEBUGGED, "")
        explored = run_program("explore", *self.files)
        self.assert_ran(["explore", definition, *options], explored.returncode, explored.stdout, "")
        for lacking in range(0, 6, 2):
            ran = run_program("run", definition, *options[:lacking], *options[lacking + 2 :])
            self.assertEqual((ran.returncode, ran.stdout), (2, ""))
            self.assertIn("required", ran.stderr)
        for twice in range(0, 6, 2):
            ran = run_program("run", *self.files, *options[twice : twice + 2])
            self.assertEqual((ran.returncode, ran.stdout), (2, ""))
            self.assertIn("cannot be used with", ran.stderr)

    def test_a_file_that_cannot_be_read_comes_before_a_text_that_is_refused(self):
        none = os.path.join(self.room, "none")
        self.file("machine", "{")
        self.assert_ran(["run", *self.files, "--steps", none], 2, "", f"fault: file {none}\n")
        self.assert_ran(["debug", *self.files, none], 2, "", f"fault: file {none}\n")

    def test_files_are_read_in_their_order(self):
        # Of two that can't be read the first one is told.
        names = [os.path.join(self.room, f"none{number}") for number in range(4)]
        for words, places in [
            (["run", *self.files], [1, 2, 4]),
            (["run", *self.files, *self.steps], [1, 2, 4, 6]),
            (["debug", *self.files, self.script], [1, 2, 4, 5]),
        ]:
            for first, at in enumerate(places):
                for second, other in enumerate(places):
                    if first < second:
                        lacking = [names[first] if it == at else names[second] if it == other else word for it, word in enumerate(words)]
                        self.assert_ran(lacking, 2, "", f"fault: file {names[first]}\n")

    def test_files_have_at_most_16777216_bytes(self):
        longest = self.file("longest", 16_777_216 * " ")
        self.assert_ran(["check", longest], 2, "", "fault: definition: F1 Json J5 Size\n")
        longer = self.file("longer", 16_777_217 * " ")
        definition, mocks, chosen, given = self.files
        for words in [
            ["check", longer],
            ["lint", definition, longer],
            ["run", definition, longer, chosen, given],
            ["explore", definition, mocks, chosen, longer],
            ["run", *self.files, "--steps", longer],
            ["debug", *self.files, longer],
            ["test", definition, mocks, longer],
        ]:
            self.assert_ran(words, 2, "", f"fault: file {longer}: it has more than 16777216 bytes\n")

    def written(self, room, stream, words):
        """The status of a command one of whose streams is a file that has room for so many bytes; and what the file has then."""

        def limit():
            signal.signal(signal.SIGXFSZ, signal.SIG_IGN)
            resource.setrlimit(resource.RLIMIT_FSIZE, (room, room))

        with tempfile.TemporaryFile() as file:
            streams = {"stdout": subprocess.DEVNULL, "stderr": subprocess.DEVNULL, stream: file}
            status = subprocess.run([PROGRAM, *words], stdin=subprocess.DEVNULL, **streams, preexec_fn=limit, timeout=60).returncode
            file.seek(0)
            return status, file.read().decode()

    def test_failed_writes_are_2(self):
        for room in (0, 5, len(STEPPED) - 1, len(STEPPED)):
            told = self.written(room, "stdout", ["run", *self.files, *self.steps])
            self.assertEqual(told, (0 if room == len(STEPPED) else 2, STEPPED[:room]))
        for room in (0, len(DEBUGGED) - 1, len(DEBUGGED)):
            told = self.written(room, "stdout", ["debug", *self.files, self.script])
            self.assertEqual(told, (0 if room == len(DEBUGGED) else 2, DEBUGGED[:room]))
        self.assertEqual(self.written(9, "stdout", ["upgrade", self.files[0]]), (2, DEFINITION[:9]))
        self.file("machine", "{")
        self.assertEqual(self.written(3, "stderr", ["check", self.files[0]]), (2, "fau"))

    def test_a_failed_write_is_told(self):
        for words in (["check", self.files[0]], ["run", *self.files, *self.steps], ["debug", *self.files, self.script], ["lint", *self.files[:2]], ["--help"]):
            with self.subTest(words), open("/dev/full", "wb") as full:
                ran = subprocess.run(
                    [PROGRAM, *words], stdin=subprocess.DEVNULL, stdout=full, stderr=subprocess.PIPE, encoding="utf-8", timeout=60, check=False
                )
                self.assertEqual((ran.returncode, ran.stderr), (2, "fault: file standard output: a write failed\n"))

    def test_words_are_told_with_every_character_shown(self):
        for words, shown in HIDDEN:
            with self.subTest(words):
                ran = run_program(*words)
                self.assertEqual((ran.returncode, ran.stdout), (2, ""))
                self.assertIn(shown, ran.stderr)
                self.assertNotRegex(ran.stderr, r"[^\n -~]")
                self.assertFalse([line for line in ran.stderr.splitlines() if line.startswith("fault: ")])

    def test_mock_files_and_cases_are_refused(self):
        for mocks, chosen, told in NO_CASES:
            with self.subTest(told):
                self.file("mocks", mocks)
                self.assert_ran(["run", *self.files[:2], chosen, self.files[3], *self.steps], 2, "", told)

    def test_help_goes_to_standard_output(self):
        for words, told in HELPS:
            with self.subTest(words):
                ran = run_program(*words)
                self.assertIn(told, ran.stdout)
                self.assertEqual((ran.returncode, ran.stderr), (0, ""))

    def test_wrong_command_lines_are_told_on_standard_error(self):
        for words, told, has_usage in [*WRONG, (["check", b"\xff"], "invalid UTF-8", True)]:
            with self.subTest(words):
                ran = run_program(*words)
                self.assertIn(told, ran.stderr)
                self.assertEqual("Usage: " in ran.stderr, has_usage)
                self.assertTrue(ran.stderr.endswith("For more information, try '--help'.\n"))
                self.assertEqual((ran.returncode, ran.stdout), (2, ""))
