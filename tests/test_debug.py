"""Sessions of the debugger, by scripts: what each command is answered, and what the execution has done in the end."""
import random

from program import MIDNIGHT, ProgramTest, answered, steps, without_mending


def at(place, second=0):
    """A step at a place, so many seconds after midnight."""
    return f"step {place} 2024-01-01T00:00:{second:02}Z"


STEP = at("/")

# The first event, where the input is an empty object.
STARTED = '1 0 2024-01-01T00:00:00.000Z / ExecutionStarted "" {}\n'

TWO_STATES = '{"StartAt":"P","States":{"P":{"Type":"Pass","Result":7,"ResultPath":"$.a.b","Next":"S"},"S":{"Type":"Succeed"}}}'

# A Pass that goes on to itself.
LOOP = '{"StartAt":"P","States":{"P":{"Type":"Pass","Next":"P"}}}'

# A loop of three states, which ends once `n` is 2.
COUNTED = (
    '{"StartAt":"A","States":{"A":{"Type":"Pass","Parameters":{"n.$":"States.MathAdd($.n, 1)"},"Next":"D"},"D":{"Type":"Pass","Next":"C"},'
    '"C":{"Type":"Choice","Choices":[{"Variable":"$.n","NumericLessThan":2,"Next":"A"}],"Default":"Z"},"Z":{"Type":"Succeed"}}}'
)

# A Map whose iterations are a Pass, one at a time.
ONE_BY_ONE = '{"StartAt":"M","States":{"M":{"Type":"Map","MaxConcurrency":1,"Iterator":{"StartAt":"K","States":{"K":{"Type":"Pass","End":true}}},"End":true}}}'

# A Map whose iterations are two Passes.
BESIDE = (
    '{"StartAt":"M","States":{"M":{"Type":"Map","Iterator":{"StartAt":"K","States":{"K":{"Type":"Pass","Next":"L"},"L":{"Type":"Pass",'
    '"End":true}}},"End":true}}}'
)

# A Task that is retried three seconds later, and then six.
RETRIED = '{"StartAt":"W","States":{"W":{"Type":"Task","Resource":"r","Retry":[{"ErrorEquals":["X"]},{"ErrorEquals":["E"],"IntervalSeconds":3}],"End":true}}}'

# What its first three invocations are answered.
THREE_ANSWERS = answered('"0-1":{"Throw":{"Error":"E","Cause":"slow"}},"2":{"Return":"third"}')

# A Parallel of a Task that fails and a Pass, which is forked again a second later.
FORKED_AGAIN = (
    '{"StartAt":"Q","States":{"Q":{"Type":"Parallel","Branches":[{"StartAt":"W","States":{"W":{"Type":"Task","Resource":"r","End":true}}},'
    '{"StartAt":"B","States":{"B":{"Type":"Pass","End":true}}}],"Retry":[{"ErrorEquals":["E"],"IntervalSeconds":1}],"End":true}}}'
)

# A Wait of ten seconds in an execution that may take five.
TOO_LONG = '{"StartAt":"W","TimeoutSeconds":5,"States":{"W":{"Type":"Wait","Seconds":10,"End":true}}}'

# Definitions, mock files, inputs, commands before which nothing is shown, and what is shown then of a place.
SHOWN = [
    (COUNTED, "{}", '{"n":0}', [], "/", '["Ready","A",{"n":0}]'),
    # The raw input, though the state has InputPath and Parameters.
    ('{"StartAt":"P","States":{"P":{"Type":"Pass","InputPath":"$.a","Parameters":{"x":1},"End":true}}}', "{}", '{"a":5,"b":2.50}', [], "/",
        '["Ready","P",{"a":5,"b":2.50}]'),
    (BESIDE, "{}", '[{"k":"v"},20]', [STEP], "/0", '["New","K",{"k":"v"}]'),
    (BESIDE, "{}", "[10,20]", [STEP, at("/1")], "/1", '["Ready","L",20]'),
    (BESIDE, "{}", "[10,20]", [STEP], "/", '["Forked","M",[10,20],"2024-01-01T00:00:00.000Z",[],[10,20]]'),
    (FORKED_AGAIN, "{}", "{}", [STEP], "/", '["Forked","Q",{},"2024-01-01T00:00:00.000Z",[0],[]]'),
    (RETRIED, THREE_ANSWERS, '{"k":1}', [STEP], "/", '["Again","W",{"k":1},"2024-01-01T00:00:00.000Z",[0,1],"2024-01-01T00:00:03.000Z"]'),
    (RETRIED, THREE_ANSWERS, "{}", [STEP, "step / 2024-01-01T00:00:03.0001Z"], "/",
        '["Again","W",{},"2024-01-01T00:00:00.000Z",[0,2],"2024-01-01T00:00:09.001Z"]'),
    (TOO_LONG, "{}", "[]", [STEP], "/", '["Pausing","W",[],"2024-01-01T00:00:00.000Z","2024-01-01T00:00:10.000Z"]'),
    (COUNTED, "{}", '{"n":0}', [STEP] * 7, "/", '["Done",{"n":2}]'),
    ('{"StartAt":"F","States":{"F":{"Type":"Fail","Error":"E","Cause":"why"}}}', "{}", "{}", [STEP], "/", '["Failed",{"Error":"E","Cause":"why"}]'),
    ('{"StartAt":"F","States":{"F":{"Type":"Fail"}}}', "{}", "{}", [STEP], "/", '["Failed",{}]'),
]

# Lines that are no command.
BAD_LINES = [
    "",
    "jump",
    "step",
    "step ",
    "step /",
    f"step  / {MIDNIGHT}",
    f"step /  {MIDNIGHT}",
    f"step / {MIDNIGHT} ",
    f" step / {MIDNIGHT}",
    f"step / {MIDNIGHT}\r",
    f"step /01 {MIDNIGHT}",
    f"Step / {MIDNIGHT}",
    "step / 2024-02-30T00:00:00Z",
    "break",
    "break ",
    "break P",
    "break 'P'",
    'break  "P"',
    'break "P" ',
    'break\t"P"',
    'break "P" "P"',
    'break "P',
    'break ["P"]',
    "break 1",
    'break "\\ud800"',
    b'break "\xff"',
    "clear P",
    'clear"P"',
    "resume",
    "resume 0",
    "resume /01",
    "resume /1234567890",
    "resume / ",
    "show",
    "show //",
    "show /0/",
    b"show /\xff",
    "back",
    "back ",
    "back -1",
    "back +1",
    "back 1.0",
    "back 1 ",
    "back 1234567890",
]


class SessionTest(ProgramTest):
    def debugged(self, definition, commands, given="{}", mocks="{}", chosen="M"):
        """What a session tells for these commands: the replies, and what stands behind them."""
        script = "".join(f"{command}\n" for command in commands)
        ran = self.on_texts("debug", definition, mocks, chosen, given, script)
        self.assertEqual((ran.stderr, ran.returncode), ("", 0))
        lines = ran.stdout.splitlines(keepends=True)
        return [line[:-1] for line in lines[: len(commands)]], "".join(lines[len(commands) :])

    def replies(self, definition, exchanged, **texts):
        """Tries commands, each with its reply, and gives what stands behind the replies."""
        replies, end = self.debugged(definition, [command for command, _ in exchanged], **texts)
        self.assertEqual(list(zip([command for command, _ in exchanged], replies)), exchanged)
        return end

    def unbroken(self, definition, places, **texts):
        """What stands behind the replies to these steps, without a session."""
        # (the first step is refused, and says when the execution starts where there is no other)
        text = self.told(definition, steps=steps(["/9/9", *places]), **texts)
        return "".join(text.splitlines(keepends=True)[len(places) + 1 :])


class DebugTest(SessionTest):
    def test_a_session_prints_its_replies_then_the_history_and_the_status(self):
        script = f'break "S"\n{STEP}\n{STEP}\nresume /\n{STEP}\n'
        ran = self.on_texts("debug", TWO_STATES, "{}", "M", "{}", script)
        self.assertEqual((ran.stderr, ran.returncode), ("", 0))
        self.assertEqual(
            ran.stdout,
            """\
set
ok
paused "S"
resumed
ok
1 0 2024-01-01T00:00:00.000Z / ExecutionStarted "" {}
2 1 2024-01-01T00:00:00.000Z / PassStateEntered "P" {}
3 2 2024-01-01T00:00:00.000Z / PassStateExited "P" {"a":{"b":7}}
4 3 2024-01-01T00:00:00.000Z / SucceedStateEntered "S" {"a":{"b":7}}
5 4 2024-01-01T00:00:00.000Z / SucceedStateExited "S" {"a":{"b":7}}
6 5 2024-01-01T00:00:00.000Z / ExecutionSucceeded "" {"a":{"b":7}}
status SUCCEEDED {"a":{"b":7}}
""",
        )

    def test_a_loop_that_is_broken_twice_and_goes_on_ends_as_the_unbroken_one(self):
        broken = [('break "C"', "set")] + 2 * [(STEP, "ok")] + [(STEP, 'paused "C"'), ("resume /", "resumed")] + 3 * [(STEP, "ok")]
        broken += [(STEP, 'paused "C"'), ("resume /", "resumed")] + 2 * [(STEP, "ok")] + [(STEP, "S1 Over"), ("show /", 'shown ["Done",{"n":2}]')]
        end = self.replies(COUNTED, broken, given='{"n":0}')
        self.assertEqual(end, self.unbroken(COUNTED, ["/"] * 7, given='{"n":0}'))
        self.assert_ends(end, 17, 'status SUCCEEDED {"n":2}')
        # Back to the start, where the breakpoint still stands and nothing is released.
        back = [("back 8", "TooFar"), ("back 7", "back 0"), ("show /", 'shown ["Ready","A",{"n":0}]'), ("resume /", "NotPaused"),
            ('break "Y"', "NoSuchState"), ("show /4", "NoSuchPlace"), ("back 1", "TooFar"), ("back 0", "back 0")]
        end = self.replies(COUNTED, broken + back, given='{"n":0}')
        self.assertEqual(end, STARTED.replace("{}", '{"n":0}') + "status RUNNING\n")
        # The whole once more.
        self.assertEqual(self.replies(COUNTED, broken + back[1:2] + broken, given='{"n":0}'), self.unbroken(COUNTED, ["/"] * 7, given='{"n":0}'))

    def test_a_session_may_end_while_a_branch_pauses(self):
        end = self.replies(LOOP, [('break "P"', "set"), (STEP, 'paused "P"'), ("show /", 'shown ["Ready","P",{}]')])
        self.assertEqual(end, STARTED + "status RUNNING\n")

    def test_iterations_pause_one_by_one(self):
        exchanged = [('break "K"', "set"), (at("/"), "ok"), (at("/1"), "S6 Slots"), (at("/0"), 'paused "K"'), ("resume /1", "resumed"), (at("/1"), "S6 Slots")]
        exchanged += [("resume /0", "resumed"), ("resume /0", "NotPaused"), (at("/0"), "ok"), (at("/0"), "S4 Finished"),
            ("resume /0", "NotPaused"), (at("/1"), "ok"), (at("/2"), 'paused "K"')]
        exchanged += [("resume /3", "NotPaused"), ("resume /2", "resumed"), (at("/2"), "ok"), (at("/"), "ok")]
        end = self.replies(ONE_BY_ONE, exchanged, given="[10,20,30]")
        self.assertEqual(end, self.unbroken(ONE_BY_ONE, ["/", "/0", "/1", "/2", "/"], given="[10,20,30]"))

    def test_each_iteration_is_released_by_itself(self):
        exchanged = [('break "K"', "set"), ('break "L"', "set"), (at("/"), "ok"), ("resume /1", "resumed"), (at("/1"), "ok"),
            (at("/1"), 'paused "L"'), (at("/0"), 'paused "K"')]
        exchanged += [("resume /0", "resumed"), (at("/0"), "ok"), ("resume /1", "resumed"), (at("/0"), 'paused "L"'), (at("/1"), "ok"),
            (at("/1"), "S4 Finished")]
        exchanged += [('clear "L"', "cleared"), (at("/0"), "ok"), (at("/"), "ok")]
        end = self.replies(BESIDE, exchanged, given="[10,20]")
        self.assertEqual(end, self.unbroken(BESIDE, ["/", "/1", "/0", "/1", "/0", "/"], given="[10,20]"))

    def test_breakpoints_are_set_once_and_cleared(self):
        exchanged = [('clear "P"', "NoSuchState"), ('break "P"', "set"), ('break "P"', "set"), ('break "S"', "set"), (STEP, 'paused "P"'),
            ('clear "P"', "cleared")]
        exchanged += [('clear "P"', "NoSuchState"), ("resume /", "NotPaused"), (STEP, "ok"), (STEP, 'paused "S"'),
            ('break ""', "NoSuchState"), ('clear "Q"', "NoSuchState")]
        self.replies(TWO_STATES, exchanged)

    def test_a_released_branch_stays_released_until_it_steps(self):
        exchanged = [('break "P"', "set"), ("resume /", "resumed"), ('clear "P"', "cleared"), ('break "P"', "set"), (STEP, "ok"),
            (STEP, 'paused "P"'), ("resume /", "resumed")]
        # Taking back no step takes the release away too.
        exchanged += [("back 0", "back 1"), (STEP, 'paused "P"'), ("resume /", "resumed"), ("back 1", "back 0"), (STEP, 'paused "P"')]
        self.replies(LOOP, exchanged)

    def test_a_branch_that_waits_is_refused_and_does_not_pause(self):
        exchanged = [('break "W"', "set"), (STEP, 'paused "W"'), ("resume /", "resumed"), (STEP, "ok"),
            (STEP, "S7 NotYet 2024-01-01T00:00:03.000Z"), ("resume /", "NotPaused"), (at("/", 3), "ok"), (at("/", 9), "ok")]
        self.assert_ends(self.replies(RETRIED, exchanged, mocks=THREE_ANSWERS, chosen="M#c"), 14, 'status SUCCEEDED "third"')

    def test_a_wait_of_no_seconds_is_over_with_its_second_step_at_one_moment(self):
        definition = '{"StartAt":"W","States":{"W":{"Type":"Wait","Seconds":0,"End":true}}}'
        exchanged = [(STEP, "ok"), ("show /", 'shown ["Pausing","W",{},"2024-01-01T00:00:00.000Z","2024-01-01T00:00:00.000Z"]'), (STEP, "ok")]
        self.assert_ends(self.replies(definition, exchanged), 5, "status SUCCEEDED {}")

    def test_a_step_of_a_branch_takes_the_releases_under_it_away(self):
        exchanged = [(at("/"), "ok"), ('break "B"', "set"), ("resume /1", "resumed"), (at("/0"), "ok"), (at("/1"), "S3 Stopped"),
            (at("/"), "ok"), ("resume /1", "NotPaused"), (at("/", 1), "ok"), (at("/1", 1), 'paused "B"')]
        self.replies(FORKED_AGAIN, exchanged, mocks=answered('"0":{"Throw":{"Error":"E"}}'), chosen="M#c")

    def test_names_are_json_texts(self):
        definition = '{"StartAt":"a\\"b","States":{"a\\"b":{"Type":"Pass","End":true},"\u00e9":{"Type":"Succeed"}}}'
        exchanged = [('break "\\u0061\\u0022b"', "set"), ('break "\\u00e9"', "set"), ('clear "\u00e9"', "cleared"), (STEP, 'paused "a\\"b"')]
        self.replies(definition, exchanged)

    def test_each_kind_of_record_is_shown(self):
        for definition, mocks, given, before, place, shown in SHOWN:
            with self.subTest(shown=shown):
                chosen = "M" if mocks == "{}" else "M#c"
                replies, _ = self.debugged(definition, [*before, f"show {place}"], given=given, mocks=mocks, chosen=chosen)
                self.assertEqual(replies, ["ok"] * len(before) + [f"shown {shown}"])

    def test_a_step_at_the_deadline_is_taken_though_the_branch_pauses(self):
        exchanged = [('break "W"', "set"), (STEP, 'paused "W"'), ("step / 2024-01-01T00:00:04.999Z", 'paused "W"'), (at("/", 5), "ok"),
            (STEP, "S1 Over"), ("resume /", "resumed")]
        end = self.replies(TOO_LONG, exchanged)
        self.assertEqual(end, STARTED
            + '2 1 2024-01-01T00:00:05.000Z / ExecutionTimedOut "" {"Error":"States.Timeout"}\nstatus TIMED_OUT {"Error":"States.Timeout"}\n')
        # It is a step like any other for those who go back.
        end = self.replies(TOO_LONG, [*exchanged, ("back 1", "back 0"), (STEP, 'paused "W"')])
        self.assertEqual(end, STARTED + "status RUNNING\n")

    def test_the_first_step_says_when_the_execution_starts(self):
        epoch = STARTED.replace("2024", "1970")
        self.assertEqual(self.replies(LOOP, []), epoch + "status RUNNING\n")
        self.assertEqual(self.replies(LOOP, [("show /", 'shown ["Ready","P",{}]'), ("resume /", "NotPaused")]), epoch + "status RUNNING\n")
        # A step that pauses, one that is refused, one that is taken back, one that isn't the last.
        other = "step / 2025-01-01T00:00:00Z"
        self.assertEqual(self.replies(LOOP, [('break "P"', "set"), (STEP, 'paused "P"'), (other, 'paused "P"')]), STARTED + "status RUNNING\n")
        self.assertEqual(self.replies(LOOP, [("show /0", "NoSuchPlace"), (at("/0"), "S2 NoSuchPlace"), (other, "ok"),
            ("back 1", "back 0")]), STARTED + "status RUNNING\n")

    def test_a_line_that_is_no_command_is_told_before_anything_is_run(self):
        for line in BAD_LINES:
            bad = line if isinstance(line, bytes) else line.encode()
            for number, script in [(1, bad + b"\n"), (2, STEP.encode() + b"\n" + bad + b"\n"), (2, b"back 1\n" + bad + b"\njump\n")]:
                with self.subTest(script=script):
                    ran = self.on_texts("debug", LOOP, "{}", "M", "{}", script)
                    self.assertEqual((ran.returncode, ran.stdout, without_mending(ran.stderr)), (2, "", f"fault: script: E2 ScriptLine {number}\n"))

    def test_other_texts_are_judged_before_the_script(self):
        for texts, told in [(("[]", "[]", "X#c", "x"), "definition: F2 NotObject"), ((LOOP, "[]", "X#c", "x"), "mocks: M2 Shape"),
            ((LOOP, "{}", "X#c", "x"), "case: M7 NoMachine"), ((LOOP, "{}", "X", "x"), "input: J1 Syntax 0")]:
            ran = self.on_texts("debug", *texts, "jump\n")
            self.assertEqual((ran.returncode, ran.stdout, without_mending(ran.stderr)), (2, "", f"fault: {told}\n"))

    def test_the_last_line_may_go_without_its_line_feed_and_counts_may_begin_with_zeros(self):
        ran = self.on_texts("debug", LOOP, "{}", "M", "{}", f"{STEP}\nback 000000001")
        self.assertEqual((ran.returncode, ran.stdout), (0, "ok\nback 0\n" + STARTED + "status RUNNING\n"))

    def test_a_long_script(self):
        loop = [STEP] * 2000 + ["show /"] * 2000 + ["back 2000"] + [STEP] * 2000
        replies, end = self.debugged(LOOP, loop)
        self.assertEqual(replies, ["ok"] * 2000 + ['shown ["Ready","P",{}]'] * 2000 + ["back 0"] + ["ok"] * 2000)
        self.assertEqual(end, self.unbroken(LOOP, ["/"] * 2000))


class BackTest(SessionTest):
    def test_going_back_by_any_number_of_200_steps(self):
        for count in range(201):
            with self.subTest(count=count):
                replies, end = self.debugged(LOOP, [STEP] * 200 + [f"back {count}"])
                self.assertEqual(replies, ["ok"] * 200 + [f"back {200 - count}"])
                self.assertEqual(end, self.unbroken(LOOP, ["/"] * (200 - count)))

    def test_going_back_again_and_again(self):
        commands, replies = [STEP] * 200, ["ok"] * 200
        for count, reply, events in [(1, "back 199", 399), (71, "back 128", 257), (1, "back 127", 255), (127, "back 0", 1), (1, "TooFar", 1)]:
            commands.append(f"back {count}")
            replies.append(reply)
            told, end = self.debugged(LOOP, commands)
            self.assertEqual((told, end.count("\n")), (replies, events + 1))
            self.assertEqual(end, self.unbroken(LOOP, ["/"] * (events // 2)))

    def test_steps_and_back_in_any_order(self):
        drawn = random.Random(64)
        commands, replies, left = [], [], 0
        for _ in range(60):
            more = drawn.randrange(100)
            commands += [STEP] * more
            replies += ["ok"] * more
            left += more
            count = drawn.choice([0, 1, 63, 64, 65, left, left + 1, drawn.randrange(left + 1)])
            commands.append(f"back {count}")
            replies.append(f"back {left - count}" if count <= left else "TooFar")
            left -= count if count <= left else 0
        commands += [STEP] * 70
        replies += ["ok"] * 70
        told, end = self.debugged(LOOP, commands)
        self.assertEqual(told, replies)
        self.assertEqual(end, self.unbroken(LOOP, ["/"] * (left + 70)))

    def test_going_back_over_a_fork_and_a_join(self):
        # A hundred iterations of two steps each, the last of them first.
        definition, given = BESIDE, "[" + ",".join(str(item) for item in range(100)) + "]"
        places = ["/"] + [f"/{99 - turn // 2}" for turn in range(200)] + ["/"]
        taken = [at(place) for place in places]
        for count in [0, 1, 2, 3, 9, 10, 73, 74, 137, 138, 199, 201, 202]:
            with self.subTest(count=count):
                left = len(places) - count
                replies, end = self.debugged(definition, [*taken, f"back {count}"], given=given)
                self.assertEqual(replies[-1], f"back {left}")
                self.assertEqual(end, self.unbroken(definition, places[:left], given=given))
                # The same steps lead to the same end.
                replies, end = self.debugged(definition, [*taken, f"back {count}", *taken[left:]], given=given)
                self.assertEqual(end, self.unbroken(definition, places, given=given))

    def test_invocations_and_the_last_moment_are_those_of_the_steps_that_are_left(self):
        taken = [(at("/", second), "ok") for second in [0, 3, 9]]
        again = '["Again","W",{},"2024-01-01T00:00:00.000Z",[0,%d],"2024-01-01T00:00:%sZ"]'
        exchanged = [*taken, ("back 2", "back 1"), ("show /", "shown " + again % (1, "03.000")),
            (STEP, "S7 NotYet 2024-01-01T00:00:03.000Z"), *taken[1:], ("back 1", "back 2"), ("show /", "shown " + again % (2, "09.000")), taken[2]]
        end = self.replies(RETRIED, exchanged, mocks=THREE_ANSWERS, chosen="M#c")
        self.assertEqual(end, self.replies(RETRIED, taken, mocks=THREE_ANSWERS, chosen="M#c"))

    def test_going_back_and_taking_another_order(self):
        first, other = ["/", "/0", "/1", "/0"], ["/1", "/0", "/1", "/0", "/"]
        commands = [at(place) for place in first] + ["back 3"] + [at(place) for place in other]
        replies, end = self.debugged(BESIDE, commands, given="[10,20]")
        self.assertEqual(replies, ["ok"] * 4 + ["back 1"] + ["ok"] * 5)
        self.assertEqual(end, self.unbroken(BESIDE, ["/", *other], given="[10,20]"))
