"""The debugger without a script: lines that are typed or come from a pipe, each answered at once."""
import os
import pty
import subprocess
import tempfile

from program import PROGRAM, TOP, ProgramTest

# A Parallel of two Passes and of a Wait with a Succeed.
FORK = (
    '{"StartAt":"Q","States":{"Q":{"Type":"Parallel","End":true,"Branches":[{"StartAt":"A","States":{"A":{"Type":"Pass","Result":"a",'
    '"Next":"A2"},"A2":{"Type":"Succeed"}}},{"StartAt":"B","States":{"B":{"Type":"Wait","Seconds":5,"Next":"B2"},"B2":{"Type":"Succeed"}}}]'
    '}}}'
)

# A Pass that goes on to itself.
LOOP = '{"StartAt":"P","States":{"P":{"Type":"Pass","Next":"P"}}}'

# A Wait of ten seconds in an execution that may take five.
TOO_LONG = '{"StartAt":"W","TimeoutSeconds":5,"States":{"W":{"Type":"Wait","Seconds":10,"End":true}}}'

# A Task that is retried a second later.
RETRIED = '{"StartAt":"W","States":{"W":{"Type":"Task","Resource":"r","Retry":[{"ErrorEquals":["E"],"IntervalSeconds":1}],"End":true}}}'
ONE_FAILURE = '{"StateMachines":{"M":{"TestCases":{"c":{"W":"a"}}}},"MockedResponses":{"a":{"0":{"Throw":{"Error":"E"}},"1":{"Return":7}}}}'

# A Task whose data can't be made, which is caught; then a Parallel of a Pass and a Fail.
CAUGHT = (
    '{"StartAt":"W","States":{"W":{"Type":"Task","Resource":"r","Parameters":{"n.$":"$.n"},"Catch":[{"ErrorEquals":["States.ALL"],"Next":"Q"}],'
    '"End":true},"Q":{"Type":"Parallel","End":true,"Branches":[{"StartAt":"A","States":{"A":{"Type":"Pass","End":true}}},'
    '{"StartAt":"B","States":{"B":{"Type":"Fail"}}}]}}}'
)

# A Map over two items, whose iterations are a Task, one at a time.
ONE_BY_ONE = '{"StartAt":"M","States":{"M":{"Type":"Map","MaxConcurrency":1,"Iterator":{"StartAt":"K","States":{"K":{"Type":"Pass","End":true}}},"End":true}}}'

START = "1970-01-01T00:00:00.000Z"

WORDS = "no such command; there are next, continue, until, steps, step, break, clear, resume, back, places, show, data, events, swap, help, quit\n"


class TerminalTest(ProgramTest):
    def typed(self, definition, lines, mocks="{}", chosen="M", given="{}"):
        """What is printed where these lines come from a pipe: the answers, then the history and the status."""
        with tempfile.TemporaryDirectory(prefix="asl-test-") as room:
            names = [os.path.join(room, name) for name in ("definition", "mocks", "input")]
            for name, text in zip(names, (definition, mocks, given)):
                with open(name, "w", encoding="utf-8") as out:
                    out.write(text)
            ran = subprocess.run([PROGRAM, "debug", *names[:2], chosen, names[2]], input=lines, capture_output=True, encoding="utf-8", timeout=60)
        self.assertEqual((ran.stderr, ran.returncode), ("", 0))
        return ran.stdout

    def answers(self, definition, lines, **texts):
        """The answers alone, as far as they go before the history."""
        told = self.typed(definition, lines, **texts)
        end = self.typed(definition, "", **texts).split(" ", 1)[1].splitlines()[0]
        first = next(at for at, line in enumerate(told.splitlines()) if line.startswith("1 0 ")
            and line.split(" ", 1)[1].split(" ", 2)[2:] == end.split(" ", 2)[2:])
        return told.splitlines()[:first]

    def strictly(self, definition, lines, *words):
        """What `debug --strict` does where these lines come from a pipe."""
        with tempfile.TemporaryDirectory(prefix="asl-test-") as room:
            names = [os.path.join(room, name) for name in ("definition", "mocks", "input")]
            for name, text in zip(names, (definition, "{}", "{}")):
                with open(name, "w", encoding="utf-8") as out:
                    out.write(text)
            return subprocess.run(
                [PROGRAM, "debug", "--strict", *words, *names[:2], "M", names[2]], input=lines, capture_output=True, encoding="utf-8", timeout=60, check=False)

    def test_a_strict_talk_ends_at_a_line_that_is_not_carried_out(self):
        for wrong in (
            "", "nonsense", "next x", "step", "step /7", "step / 1969-12-31T23:59:59.000Z", 'break "X"', "break /9", 'clear "X"', "back 9", "resume", "data /9", "until x",
        ):
            for before in ([], ["next"], ["places", "next", "help"]):
                with self.subTest(wrong=wrong, before=before):
                    lines = "".join(f"{line}\n" for line in (*before, wrong))
                    ran = self.strictly(FORK, f"{lines}next 2\n")
                    # What stands behind the line isn't read; all else is printed as without the option.
                    self.assertEqual(ran.stdout, self.typed(FORK, lines))
                    self.assertEqual(ran.stderr, f"debug: line {len(before) + 1}: not carried out, and --strict ends here\n")
                    self.assertEqual(ran.returncode, 1)

    def test_a_strict_talk_is_as_any_other_where_each_line_is_carried_out(self):
        lines = 'next\nplaces\nbreak "A2"\ncontinue\nresume /0\nstep /0\nback 1\ndata /0\nevents\nsteps\nhelp\nnext 99\nnext\nquit\nnonsense\n'
        ran = self.strictly(FORK, lines)
        self.assertEqual((ran.stdout, ran.stderr, ran.returncode), (self.typed(FORK, lines), "", 0))

    def test_a_strict_talk_and_a_script(self):
        for words, option in ((["--script", "none"], "--script <FILE>"),):
            ran = self.strictly(FORK, "", *words)
            self.assertEqual((ran.returncode, ran.stdout), (2, ""))
            self.assertIn(f"the argument '--strict' cannot be used with '{option}'", ran.stderr)

    def test_nothing_typed(self):
        self.assertEqual(self.typed(FORK, ""), f'1 0 {START} / ExecutionStarted "" {{}}\nstatus RUNNING\n')

    def test_steps_that_come_next(self):
        self.assertEqual(
            self.answers(FORK, "next\nnext 2\nnext 0\nnext 3\nnext\nnext\n"),
            [
                f"step / {START} ok",
                f"step /0 {START} ok",
                f"step /0 {START} ok",
                f"step /1 {START} ok",
                "step /1 1970-01-01T00:00:05.000Z ok",
                "step /1 1970-01-01T00:00:05.000Z ok",
                "step / 1970-01-01T00:00:05.000Z ok",
                "the execution is over",
            ],
        )

    def test_a_breakpoint_is_met_and_passed(self):
        self.assertEqual(
            self.answers(FORK, 'break "A2"\ncontinue\nplaces\ncontinue\n'),
            [
                "set",
                f"step / {START} ok",
                f"step /0 {START} ok",
                f'step /0 {START} paused "A2"',
                '/ Forked "Q" S5 Busy',
                '/0 Ready "A2" paused "A2"',
                '/1 Ready "B" ok',
                f"step /0 {START} ok",
                f"step /1 {START} ok",
                "step /1 1970-01-01T00:00:05.000Z ok",
                "step /1 1970-01-01T00:00:05.000Z ok",
                "step / 1970-01-01T00:00:05.000Z ok",
                "the execution is over",
            ],
        )

    def test_a_loop_pauses_each_time(self):
        self.assertEqual(
            self.answers(LOOP, 'break "P"\nnext 3\nnext 3\nclear "P"\nnext 2\n'),
            ["set", f"step / {START} ok", f'step / {START} paused "P"', f"step / {START} ok", f'step / {START} paused "P"', "cleared",
                f"step / {START} ok", f"step / {START} ok"],
        )

    def test_a_name_needs_no_quotes(self):
        usage = "write it as: break NAME, or break on error"
        self.assertEqual(
            self.answers(LOOP, 'break P\nnext 3\nclear P\nnext 2\nbreak  P\nbreak "P\nbreak\nbreak Q\n'),
            ["set", f"step / {START} ok", f'step / {START} paused "P"', "cleared", f"step / {START} ok", f"step / {START} ok", usage, usage, usage, "NoSuchState"],
        )

    def test_another_branch_first(self):
        self.assertEqual(
            self.answers(FORK, f"next 3\nback 2\nstep /1 {START}\nsteps\ndata /0\n"),
            [f"step / {START} ok", f"step /0 {START} ok", f"step /0 {START} ok", "back 1", "ok", f"/ {START}", f"/1 {START}", "{}"],
        )

    def test_until_a_moment(self):
        self.assertEqual(
            self.answers(FORK, "until 1970-01-01T00:00:04.999Z\nuntil 1970-01-01T00:00:04.999Z\nuntil 1970-01-01T01:00:05+01:00\n"),
            [
                f"step / {START} ok",
                f"step /0 {START} ok",
                f"step /0 {START} ok",
                f"step /1 {START} ok",
                "the next step is at 1970-01-01T00:00:05.000Z",
                "the next step is at 1970-01-01T00:00:05.000Z",
                "step /1 1970-01-01T00:00:05.000Z ok",
                "step /1 1970-01-01T00:00:05.000Z ok",
                "step / 1970-01-01T00:00:05.000Z ok",
                "the execution is over",
            ],
        )

    def test_steps_stop_where_something_fails(self):
        # An invocation that is retried, and a state that fails.
        self.assertEqual(
            self.answers(RETRIED, "break on error\ncontinue\ncontinue\n", mocks=ONE_FAILURE, chosen="M#c"),
            ["set", f"step / {START} ok", "something failed", "step / 1970-01-01T00:00:01.000Z ok", "the execution is over"],
        )
        self.assertEqual(
            self.answers(CAUGHT, "break on error\nnext 9\nnext 9\nnext 9\n"),
            ["set", f"step / {START} ok", "something failed", f"step / {START} ok", f"step /0 {START} ok", f"step /1 {START} ok", "something failed",
                f"step / {START} ok", "something failed"],
        )
        # The time of the execution is over.
        told = self.typed(TOO_LONG, "break on error\nuntil +1d\n").splitlines()
        self.assertEqual(told[:4], ["set", f"step / {START} ok", "step / 1970-01-01T00:00:05.000Z ok", "something failed"])
        # It is taken back.
        told = self.answers(RETRIED, "break on error\nclear on error\ncontinue\n", mocks=ONE_FAILURE, chosen="M#c")
        self.assertEqual(told, ["set", "cleared", f"step / {START} ok", "step / 1970-01-01T00:00:01.000Z ok", "the execution is over"])
        # A state of that name is named in quotes.
        definition = '{"StartAt":"on error","States":{"on error":{"Type":"Pass","End":true}}}'
        self.assertEqual(self.answers(definition, 'break "on error"\nstep /\nclear "on error"\nclear  on error\nbreak on errors\n'),
            ["set", f'step / {START} paused "on error"', "cleared", "write it as: clear NAME, or clear on error", "NoSuchState"])

    def test_a_step_without_a_moment_is_as_early_as_it_may_be(self):
        self.assertEqual(
            self.answers(FORK, "step /\nstep /1\nstep /1\nstep /0\nstep /7\nstep /\n"),
            [
                f"step / {START} ok",
                f"step /1 {START} ok",
                "step /1 1970-01-01T00:00:05.000Z ok",
                "step /0 1970-01-01T00:00:05.000Z ok",
                "step /7 1970-01-01T00:00:05.000Z S2 NoSuchPlace",
                "step / 1970-01-01T00:00:05.000Z S5 Busy",
            ],
        )
        # The time of the execution is over before.
        self.assertEqual(self.answers(TOO_LONG, "step /\nstep /\n"), [f"step / {START} ok", "step / 1970-01-01T00:00:05.000Z ok"])
        # A breakpoint is no moment to wait for.
        self.assertEqual(self.answers(LOOP, "break P\nstep /\n"), ["set", f'step / {START} paused "P"'])

    def test_spans_begin_at_the_last_moment(self):
        spans = [("+0s", "00:00:00.000"), ("+5s", "00:00:05.000"), ("+1m", "00:01:05.000"), ("+2h", "02:01:05.000"), ("+007s", "02:01:12.000")]
        self.assertEqual(
            self.answers(LOOP, "".join(f"step / {span}\n" for span, _ in spans) + "step / +1d\nstep / +999999999d\nstep / +1s\n"),
            [f"step / 1970-01-01T{clock}Z ok" for _, clock in spans]
            + ["step / 1970-01-02T02:01:12.000Z ok", "step / 9999-12-31T23:59:59.999Z ok", "step / 9999-12-31T23:59:59.999Z ok"],
        )
        self.assertEqual(
            self.answers(FORK, "next 4\nuntil +4s\nuntil +5s\nswap /0 +1s /1 +2s\n"),
            [f"step / {START} ok", f"step /0 {START} ok", f"step /0 {START} ok", f"step /1 {START} ok", "the next step is at 1970-01-01T00:00:05.000Z"]
            + [f"step {place} 1970-01-01T00:00:05.000Z ok" for place in ("/1", "/1", "/")]
            + ["the execution is over", "not exchangeable: the moments differ"],
        )
        self.assertEqual(self.answers(FORK, "next\nswap /0 +1s /1 1970-01-01T00:00:01Z\n"), [f"step / {START} ok", "exchangeable"])

    def test_times_since_the_start_are_read_as_the_tree_tells_them(self):
        start = "step / 2024-01-01T12:00:00Z"
        times = [("00:00.000", "12:00:00.000"), ("00:05.001", "12:00:05.001"), ("59:59.999", "12:59:59.999"), ("1:00:00.000", "13:00:00.000")]
        told = self.typed(LOOP, "\n".join([start] + [f"step / {time}" for time, _ in times]) + "\nstep / 12:00:00.000\nstep / 999999999:59:59.999\n")
        self.assertEqual(told.splitlines()[:7], ["ok"] + [f"step / 2024-01-01T{clock}Z ok" for _, clock in times]
            + ["step / 2024-01-02T00:00:00.000Z ok", "step / 9999-12-31T23:59:59.999Z ok"])
        self.assertEqual(self.answers(FORK, "next 4\nuntil 00:04.999\nuntil 00:05.000\n")[4:], ["the next step is at 1970-01-01T00:00:05.000Z"]
            + [f"step {place} 1970-01-01T00:00:05.000Z ok" for place in ("/1", "/1", "/")] + ["the execution is over"])

    def test_a_span_does_not_start_the_execution(self):
        told = self.typed(LOOP, "step / +5s\nstep / 2024-01-01T00:00:00Z\n").splitlines()
        self.assertEqual(told[:2], ["step / 1970-01-01T00:00:05.000Z ok", "ok"])
        self.assertIn("1970-01-01T00:00:00.000Z / ExecutionStarted", told[2])
        told = self.typed(LOOP, "step / 2024-01-01T00:00:00Z\nstep / +5s\n").splitlines()
        self.assertEqual(told[:2], ["ok", "step / 2024-01-01T00:00:05.000Z ok"])
        self.assertIn("2024-01-01T00:00:00.000Z / ExecutionStarted", told[2])

    def test_what_names_no_moment(self):
        lines = ["+5", "5s", "+s", "+ 5s", "+5 s", "+5S", "+5ms", "+-5s", "+5s ", "+1234567890s", "-5s", "+5s+5s", "soon", "00:05", "0:05.000", "00:60.000", "60:00.000", ":00:05.000", "00:05.00",
            "00:05.0000", "00:00:00:05.000", "00.05.000", "1:0:05.000", "1:00:05.000Z", "\u0665s", "+\u0665s"]
        self.assertEqual(self.answers(LOOP, "".join(f"step / {line}\n" for line in lines)), ["write it as: step PLACE [MOMENT]"] * len(lines))
        self.assertEqual(self.answers(LOOP, "".join(f"until {line}\n" for line in lines)), ["write it as: until MOMENT"] * len(lines))

    def test_what_each_branch_waits_for(self):
        self.assertEqual(
            self.answers(ONE_BY_ONE, "next\nplaces\nnext\nplaces\n", given="[1,2]"),
            [f"step / {START} ok", '/ Forked "M" S5 Busy', '/0 New "K" ok', '/1 New "K" S6 Slots', f"step /0 {START} ok",
                '/ Forked "M" S5 Busy', "/0 Done S4 Finished", '/1 New "K" ok'],
        )
        self.assertEqual(
            self.answers(RETRIED, "next\nplaces\nnext\nplaces\n", mocks=ONE_FAILURE, chosen="M#c"),
            [f"step / {START} ok", '/ Again "W" S7 NotYet 1970-01-01T00:00:01.000Z', "step / 1970-01-01T00:00:01.000Z ok", "/ Done S1 Over"],
        )

    def test_the_time_is_over(self):
        told = self.typed(TOO_LONG, 'break "W"\nnext\ncontinue\n')
        self.assertEqual(told.splitlines()[:4], ["set", f"step / {START} ok", "step / 1970-01-01T00:00:05.000Z ok", "the execution is over"])
        self.assertEqual(told.splitlines()[-1], 'status TIMED_OUT {"Error":"States.Timeout"}')

    def test_a_full_history(self):
        told = self.typed(LOOP, "continue\ncontinue\nevents 1\n").splitlines()
        self.assertEqual(len(told), 12_496 + 2 + 1 + 24_993 + 1)
        self.assertEqual(told[12_496:12_499], ["the history is full", "the history is full", f'24993 24992 {START} / PassStateExited "P" {{}}'])

    def test_data_and_events(self):
        self.assertEqual(
            self.answers(FORK, "data /\nnext 2\ndata /0\ndata /7\nevents 2\nevents 0\n", given='{"n": 2.50}'),
            ['{"n":2.50}', f"step / {START} ok", f"step /0 {START} ok", '"a"', "NoSuchPlace",
                f'4 3 {START} /0 PassStateEntered "A" {{"n":2.50}}', f'5 4 {START} /0 PassStateExited "A" "a"'],
        )

    def test_bad_lines_lose_nothing(self):
        self.assertEqual(
            self.answers(FORK, "next\n\nfoo\nnext x\nnext 1234567890\nnext  2\n next\ncontinue 2\nstep 0\nstep / 2024\nsteps 1\nbreak "
                "\"A2\nuntil\nuntil soon\ndata\ndata 0\nplaces \nevents -1\nswap /0\nback\nquit now\nplaces\n"),
            [f"step / {START} ok", WORDS[:-1], WORDS[:-1]]
            + ["write it as: next [N]"] * 3
            + [WORDS[:-1], "write it as: continue"]
            + ["write it as: step PLACE [MOMENT]"] * 2
            + ["write it as: steps", "write it as: break NAME, or break on error"]
            + ["write it as: until MOMENT"] * 2
            + ["write it as: data PLACE"] * 2
            + ["write it as: places", "write it as: events [N]", "write it as: swap PLACE MOMENT PLACE MOMENT", "write it as: back N", "write it as: quit"]
            + ['/ Forked "Q" S5 Busy', '/0 Ready "A" ok', '/1 Ready "B" ok'],
        )

    def test_quit_ends_it(self):
        self.assertEqual(self.typed(FORK, "next\nquit\nnext\n"), f"step / {START} ok\n" + self.typed(FORK, "next")[len(f"step / {START} ok\n") :])

    def test_a_script_from_a_pipe_is_answered_as_one_from_a_file(self):
        for name, case in (("order", "order#unpaid"), ("enrich", "enrich#enriched"), ("payment", "payment#busy")):
            folder = f"{TOP}/examples/{name}"
            texts = [f"{folder}/definition.json", f"{folder}/mocks.json", case, f"{folder}/input.json"]
            steps = [f"{place} 2024-03-01T12:00:{second:02}Z" for second in range(0, 50, 7) for place in ("/", "/0", "/1", "/2")]
            script = 'show /\nresume /\nbreak "nothing"\n' + "".join(f"step {step}\nshow /0\n" for step in steps) + "back 2\nback 1000\nshow /1\n"
            with tempfile.NamedTemporaryFile("w", encoding="utf-8") as file:
                file.write(script)
                file.flush()
                by_file = subprocess.run([PROGRAM, "debug", *texts, file.name], capture_output=True, encoding="utf-8", timeout=60)
            by_pipe = subprocess.run([PROGRAM, "debug", *texts], input=script, capture_output=True, encoding="utf-8", timeout=60)
            self.assertEqual((by_file.returncode, by_file.stderr), (0, ""))
            self.assertEqual((by_pipe.stdout, by_pipe.returncode, by_pipe.stderr), (by_file.stdout, 0, ""))

    def test_steps_are_a_steps_file(self):
        folder = f"{TOP}/examples/order"
        texts = [f"{folder}/definition.json", f"{folder}/mocks.json", "order#shipped", f"{folder}/input.json"]
        told = subprocess.run([PROGRAM, "debug", *texts], input="continue\nsteps\n", capture_output=True, encoding="utf-8", timeout=60).stdout
        answers = told[: told.index("1 0 1970")].splitlines()
        count = answers.index("the execution is over")
        steps = answers[count + 1 :]
        self.assertEqual(answers[:count], [f"step {step} ok" for step in steps])
        with tempfile.NamedTemporaryFile("w", encoding="utf-8") as file:
            file.write("\n".join(steps))
            file.flush()
            ran = subprocess.run([PROGRAM, "run", *texts, "--steps", file.name], capture_output=True, encoding="utf-8", timeout=60)
        driven = subprocess.run([PROGRAM, "run", *texts], capture_output=True, encoding="utf-8", timeout=60)
        self.assertEqual(ran.stdout.split("\n", count)[-1], driven.stdout)
        self.assertEqual(told[told.index("1 0 1970") :], driven.stdout)

    def test_each_line_is_answered_at_once(self):
        folder = f"{TOP}/examples/hello"
        ran = subprocess.Popen([PROGRAM, "debug", f"{folder}/definition.json", f"{folder}/mocks.json", "M", f"{folder}/input.json"],
            stdin=subprocess.PIPE, stdout=subprocess.PIPE, encoding="utf-8")
        try:
            for line, answer in (("next", f"step / {START} ok\n"), ("places", '/ Ready "S" ok\n'), ("foo", WORDS)):
                ran.stdin.write(line + "\n")
                ran.stdin.flush()
                self.assertEqual(ran.stdout.readline(), answer)
            ran.stdin.close()
            self.assertEqual(ran.stdout.read().splitlines()[-1], "status RUNNING")
            self.assertEqual(ran.wait(60), 0)
        finally:
            ran.kill()
            ran.stdout.close()

    def test_a_terminal_gets_a_greeting_and_a_prompt(self):
        folder = f"{TOP}/examples/hello"
        ours, theirs = pty.openpty()
        ran = subprocess.Popen([PROGRAM, "debug", f"{folder}/definition.json", f"{folder}/mocks.json", "M", f"{folder}/input.json"],
            stdin=theirs, stdout=subprocess.PIPE, stderr=subprocess.PIPE, encoding="utf-8")
        os.close(theirs)
        os.write(ours, b"next\nquit\n")
        out, err = ran.communicate(timeout=60)
        os.close(ours)
        # (greeted once, before the first prompt)
        self.assertEqual(err, '/ Ready "P" ok\nnext takes a step, help tells what else a line may say\nasl> asl> ')
        self.assertEqual(out.splitlines()[0], f"step / {START} ok")

    def test_refused_before_a_line_is_read(self):
        ran = subprocess.run([PROGRAM, "debug", "/nowhere", "/nowhere", "M", "/nowhere"], input="next\n", capture_output=True, encoding="utf-8", timeout=60)
        self.assertEqual((ran.returncode, ran.stdout, ran.stderr), (2, "", "fault: file /nowhere\n"))

    def test_input_that_cannot_be_read(self):
        folder = f"{TOP}/examples/hello"
        folder_itself = os.open(folder, os.O_RDONLY)
        ran = subprocess.run([PROGRAM, "debug", f"{folder}/definition.json", f"{folder}/mocks.json", "M", f"{folder}/input.json"],
            stdin=folder_itself, capture_output=True, encoding="utf-8", timeout=60)
        os.close(folder_itself)
        self.assertEqual((ran.returncode, ran.stdout, ran.stderr), (2, "", "fault: file standard input\n"))
