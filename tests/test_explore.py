"""Every order of the branches: what is listed is given by its witness, and whatever steps are taken, their outcome is listed."""
import glob
import json
import os
import random
import tempfile
from typing import NamedTuple

from program import NO_ANSWER, TOP, ProgramTest, run_program, without_mending

START = "1970-01-01T00:00:00.000Z"

# The examples with several outcomes, since the order decides or the time may be over, and how many they have.
SEVERAL = {
    "approval#approved": 2,
    "approval#rejected": 2,
    "order#shipped": 2,
    "orders#declined": 3,
    "orders#late": 2,
    "orders#shipped": 2,
    "orders#soldout": 2,
    "thumbnails#made": 4,
    "loan#both": 2,
}

# The first line of a search that left out nothing.
EVERY = "search complete: every order, every moment"
EARLIEST = "search complete: every order, each step at its earliest moment"
PROMPT = "search complete: every order in which no branch is late"

TIMED_OUT = 'TIMED_OUT {"Error":"States.Timeout"}'
TIME_LIMIT = f"note time limit: a late step ends the execution at any time, as {TIMED_OUT}"


class Found(NamedTuple):
    """What is printed of an outcome: its text, the places of the steps that end in it, whether it comes only where a branch is late, and
    how often Tasks are invoked: pairs of a name and a text."""

    outcome: str
    places: list
    late: bool
    calls: list


class Lasso(NamedTuple):
    """An order that never ends: the places of its steps, and of those that are taken again and again."""

    stem: list
    round: list


class Explored(NamedTuple):
    """What is printed of a search: its first line, the number of worlds, the outcomes, an order that never ends, and behind them what is
    remarkable and the notes."""

    search: str
    worlds: int
    found: list
    endless: Lasso
    remarks: list
    notes: list

    @property
    def outcomes(self):
        """The texts of the outcomes."""
        return [one.outcome for one in self.found]

    @property
    def reads_clock(self):
        """Whether a text is told that may read the clock."""
        return any(note.startswith("note the text at ") for note in self.notes)

    @property
    def complete(self):
        """Whether nothing was left out."""
        return self.search in (EVERY, EARLIEST, PROMPT)


def called(line):
    """The name and the text of a line that tells how often a Task is invoked."""
    name, told = line.removeprefix("calls ").rsplit(" ", 1)
    assert line.startswith("calls "), line
    return json.loads(name), told


def clock_note(place):
    """The note on the text at this place, which may read the clock."""
    return f"note the text at {json.dumps(place)} may read the clock: at other moments there may be other outcomes"


def late_steps(chance, places, count):
    """The lines of random steps at these places, many of them late."""
    moment, lines = 0, []
    for number in range(count):
        if number and chance.random() < 0.4:
            moment += chance.choice([1, 500, 1000, 2000, 3000, 7000, 60000])
        minutes, seconds = divmod(moment // 1000, 60)
        lines.append(f"{chance.choice(places)} 1970-01-01T{minutes // 60:02}:{minutes % 60:02}:{seconds:02}.{moment % 1000:03}Z\n")
    return "".join(lines)


def lasso(part):
    """The order that never ends, of these lines."""
    first, order, loop = part.splitlines()
    (word, *stem), (again, *round_) = order.split(" "), loop.split(" ")
    assert (first, word, again) == ("endless", "order", "loop") and round_, part
    return Lasso(stem, round_)


def explored(text):
    """What this text of a search says."""
    head, *parts = text.split("\n\n")
    search, worlds, outcomes = head.splitlines()
    behind = parts.pop().splitlines() if parts and not parts[-1].startswith(("outcome ", "endless\n")) else []
    endless = lasso(parts.pop()) if parts and parts[-1].startswith("endless\n") else None
    notes = [line for line in behind if line.startswith("note ")]
    remarks = behind[: len(behind) - len(notes)]
    assert remarks + notes == behind, text
    found = []
    for number, part in enumerate(parts, 1):
        first, order, *more = part.splitlines()
        assert first.startswith(f"outcome {number} ") and order.startswith("order "), part
        late = more[:1] == ["late"]
        calls = [called(line) for line in more[late:]]
        found.append(Found(first.split(" ", 2)[2], order.split(" ")[1:], late, calls))
    assert outcomes == f"outcomes {len(found)}", text
    return Explored(search, int(worlds.removeprefix("worlds ")), found, endless, remarks, notes)


def example_cases():
    """The folder, the chosen case and the input of each test case of the examples."""
    for stored in sorted(glob.glob(f"{TOP}/examples/*/*.driven.txt")):
        folder, case = os.path.dirname(stored), os.path.basename(stored).removesuffix(".driven.txt")
        own = f"{folder}/{case}.input.json"
        given = own if os.path.exists(own) else f"{folder}/input.json"
        yield folder, f"{os.path.basename(folder)}#{case}", given, stored


def chain(prefix, count, kind='"Type":"Pass"', last='"End":true'):
    """The text of a machine of so many states in a row."""
    names = [f"{prefix}{number}" for number in range(count)]
    rows = []
    for name, behind in zip(names, names[1:] + [None]):
        goes = last if behind is None else f'"Next":"{behind}"'
        rows.append(f'"{name}":{{{kind},{goes}}}')
    return f'{{"StartAt":"{names[0]}","States":{{{",".join(rows)}}}}}'


def parallel(branches, more=""):
    """The text of a definition of a Parallel of these machines."""
    return f'{{"StartAt":"P","States":{{"P":{{"Type":"Parallel","Branches":[{",".join(branches)}]{more},"End":true}}}}}}'


def mapped(body, more=""):
    """The text of a definition of a Map over the input."""
    return f'{{"StartAt":"M","States":{{"M":{{"Type":"Map","ItemProcessor":{body}{more},"End":true}}}}}}'


def mocked(answers):
    """The text of a mock file of the machine M with the case c, in which each Task has these answers: a text of keys and answers each."""
    named = ",".join(f'"{task}":"a{number}"' for number, task in enumerate(answers))
    told = ",".join(f'"a{number}":{{{text}}}' for number, text in enumerate(answers.values()))
    return f'{{"StateMachines":{{"M":{{"TestCases":{{"c":{{{named}}}}}}}}},"MockedResponses":{{{told}}}}}'


def numbered(count):
    """So many answers, all different."""
    return ",".join(f'"{number}":{{"Return":{number}}}' for number in range(count))


TASK = '"Type":"Task","Resource":"r"'
ONE_TASK = '{"StartAt":"T","States":{"T":{"Type":"Task","Resource":"r","End":true}}}'
FOR_EVER = '"0-9999":{"Return":1}'
ROUND = '{"StartAt":"A","States":{"A":{"Type":"Pass","Next":"A"}}}'


class Searches(ProgramTest):
    """Tests of searches."""

    def explore(self, definition, given="{}", mocks="{}", chosen="M#c", *words):
        """What a search of these texts prints, with its status and what it tells."""
        with tempfile.TemporaryDirectory(prefix="asl-test-") as room:
            names = []
            for name, text in [("definition.json", definition), ("mocks.json", mocks), ("input.json", given)]:
                names.append(os.path.join(room, name))
                with open(names[-1], "w", encoding="utf-8") as out:
                    out.write(text)
            return run_program("explore", names[0], names[1], chosen, names[2], *words)

    def assert_noted(self, ran, told):
        """On standard error stands which answers lacked, each once, if an outcome is a failure for want of one; and nothing else."""
        lines = ran.stderr.splitlines()
        self.assertEqual(bool(lines), f"FAILED {NO_ANSWER}" in told.outcomes, ran.stderr)
        self.assertEqual(len(set(lines)), len(lines))
        for line in lines:
            self.assertRegex(line, r'\Anote: (case ".*" has|no case is chosen, so there is) no answer \d+ of the Task ".*"\Z')


class Exploring(Searches):
    def complete(self, definition, given="{}", mocks="{}", chosen="M#c"):
        """What a search found that left out nothing. Its status is 0 just if all succeed, and every order can be gone on with to an end."""
        ran = self.explore(definition, given, mocks, chosen)
        told = explored(ran.stdout)
        self.assert_noted(ran, told)
        self.assertEqual(told.search, EARLIEST if told.reads_clock else EVERY)
        self.assertEqual(TIME_LIMIT in told.notes, TIMED_OUT in told.outcomes)
        self.assertEqual(len(set(told.outcomes)), len(told.outcomes))
        good = all(one.startswith("SUCCEEDED ") for one in told.outcomes) and told.endless is None
        self.assertEqual(ran.returncode, 0 if good else 1)
        return told

    # ---- the examples

    def test_the_witnesses_of_the_examples_reproduce_their_outcomes(self):
        several = {}
        for folder, chosen, given, stored in example_cases():
            words = [f"{folder}/definition.json", f"{folder}/mocks.json", chosen, given]
            ran = run_program("explore", *words)
            told = explored(ran.stdout)
            self.assert_noted(ran, told)
            self.assertEqual((told.search, told.endless), (EVERY, None), chosen)
            for number, one in enumerate(told.found, 1):
                witness = run_program("explore", *words, "--witness", str(number))
                self.assertEqual((witness.returncode, witness.stderr), (0, ""))
                lines = witness.stdout.splitlines()
                self.assertEqual([line.split(" ")[0] for line in lines], one.places)
                self.assertTrue(lines[0].endswith(f" {START}"))
                with tempfile.NamedTemporaryFile("w", prefix="asl-test-") as file:
                    file.write(witness.stdout)
                    file.flush()
                    again = run_program("run", *words, "--steps", file.name).stdout.splitlines()
                    for form in ("steps", "tree", "data"):
                        shown = run_program("explore", *words, "--witness", str(number), "--format", form)
                        of_run = run_program("run", *words, "--steps", file.name, "--format", form)
                        self.assertEqual((shown.returncode, shown.stdout, shown.stderr), (0, of_run.stdout, ""))
                with tempfile.NamedTemporaryFile("w", prefix="asl-test-") as file:
                    file.write(run_program("explore", *words, "--witness", str(number), "--format", "test").stdout)
                    file.flush()
                    tested = run_program("test", *words[:2], file.name).stdout.splitlines()
                    self.assertEqual((tested[0].split()[:2], tested[1:]), (["ok", chosen], ["1 passed, 0 failed"]))
                self.assertEqual(again[: len(lines)], [f"step {place} ok" for place in one.places])
                self.assertEqual(again[-1], f"status {one.outcome}")
            with open(stored, encoding="utf-8") as file:
                self.assertIn(file.read().splitlines()[-1].removeprefix("status "), told.outcomes, chosen)
            if len(told.found) > 1:
                several[chosen] = len(told.found)
        self.assertEqual(several, SEVERAL)

    # ---- outcomes that are known

    def test_branches_that_only_pass_have_one_outcome(self):
        for branches, length in [(4, 5), (6, 5)]:
            told = self.complete(parallel([chain(f"B{number}S", length) for number in range(branches)]), chosen="M")
            self.assertEqual(told.outcomes, [f"SUCCEEDED [{','.join(['{}'] * branches)}]"])

    def test_tasks_of_their_own_names_have_one_outcome(self):
        names = [f"B{branch}S{number}" for branch in range(5) for number in range(4)]
        told = self.complete(parallel([chain(f"B{branch}S", 4, TASK) for branch in range(5)]), mocks=mocked({name: FOR_EVER for name in names}))
        self.assertEqual(told.outcomes, ["SUCCEEDED [1,1,1,1,1]"])

    def test_whichever_branch_fails_first_decides(self):
        branches, answers = [], {}
        for branch in range(4):
            names = [f"B{branch}S{number}" for number in range(3)]
            branches.append(chain(f"B{branch}S", 3, TASK))
            answers.update({name: FOR_EVER for name in names[:-1]})
            answers[names[-1]] = f'"0":{{"Throw":{{"Error":"E{branch}"}}}}'
        told = self.complete(parallel(branches), mocks=mocked(answers))
        self.assertEqual(sorted(told.outcomes), [f'FAILED {{"Error":"E{branch}"}}' for branch in range(4)])
        one = {name: text if name == "B0S2" else FOR_EVER for name, text in answers.items()}
        self.assertEqual(self.complete(parallel(branches), mocks=mocked(one)).outcomes, ['FAILED {"Error":"E0"}'])

    def test_iterations_share_the_answers_of_a_task(self):
        for items, more, answers, wanted in [
            (6, "", numbered(6), 720),
            (6, ',"MaxConcurrency":1', numbered(6), 1),
            (6, ',"MaxConcurrency":2', numbered(6), 32),
            (10, ',"MaxConcurrency":2', numbered(10), 512),
            (10, "", FOR_EVER, 1),
            (8, "", '"0":{"Return":"a"},"1-9999":{"Return":"b"}', 8),
            (12, "", '"0":{"Return":"a"},"1-9999":{"Return":"b"}', 12),
            (8, "", '"0-6":{"Return":0},"7":{"Throw":{"Error":"E"}}', 1),
            (7, "", numbered(7), 5040),
        ]:
            told = self.complete(mapped(ONE_TASK, more), f"[{','.join('0' * items)}]", mocked({"T": answers}))
            self.assertEqual(len(told.found), wanted, (items, more, answers))

    def test_iterations_share_the_answers_of_two_tasks(self):
        answers = {"T0": numbered(4), "T1": numbered(4)}
        self.assertEqual(len(self.complete(mapped(chain("T", 2, TASK)), "[0,0,0,0]", mocked(answers)).found), 24)
        maps = ['{"StartAt":"N%s","States":{"N%s":{"Type":"Map","ItemProcessor":%s,"End":true}}}' % (name, name, chain(name, 1, TASK)) for name in "AB"]
        told = self.complete(parallel(maps), "[0,0,0,0]", mocked({"A0": numbered(4), "B0": numbered(4)}))
        self.assertEqual(len(told.found), 24 * 24)

    def test_a_branch_that_fails_is_retried_with_all(self):
        fails = '{"StartAt":"A0","States":{"A0":%s,"A1":{"Type":"Fail","Error":"E"}}}' % f'{{{TASK},"Next":"A1"}}'
        definition = parallel([fails, chain("B", 2, TASK), chain("C", 2, TASK)], ',"Retry":[{"ErrorEquals":["E"],"IntervalSeconds":1,"MaxAttempts":1}]')
        told = self.complete(definition, "{}", mocked({"A0": numbered(2), **{f"{name}{number}": numbered(2) for name in "BC" for number in range(2)}}))
        self.assertEqual(told.outcomes, ['FAILED {"Error":"E"}'])

    def test_a_wait_beside_a_branch_that_fails(self):
        busy = '"Retry":[{"ErrorEquals":["Busy"],"IntervalSeconds":2,"MaxAttempts":2}]'
        branches = [
            '{"StartAt":"T","States":{"T":{%s,%s,"Next":"F"},"F":{"Type":"Fail","Error":"E"}}}' % (TASK, busy),
            chain("W", 1, '"Type":"Wait","Seconds":1'),
            *[chain(name, 2, TASK) for name in "ABC"],
        ]
        answers = {"T": '"0-1":{"Throw":{"Error":"Busy"}},"2":{"Return":1}', **{f"{name}{number}": FOR_EVER for name in "ABC" for number in range(2)}}
        self.assertEqual(self.complete(parallel(branches), "{}", mocked(answers)).outcomes, ['FAILED {"Error":"E"}'])

    def test_a_map_of_maps(self):
        inner = f'{{"StartAt":"Q","States":{{"Q":{{"Type":"Parallel","Branches":[{chain("A", 2, TASK)},{chain("B", 2, TASK)}],"End":true}}}}}}'
        told = self.complete(mapped(inner), "[0,0]", mocked({name: FOR_EVER for name in ["A0", "A1", "B0", "B1"]}))
        self.assertEqual(told.outcomes, ["SUCCEEDED [[1,1],[1,1]]"])

    def test_a_busy_service_is_asked_again(self):
        body = '{"StartAt":"T","States":{"T":{"Type":"Task","Resource":"r","Retry":[{"ErrorEquals":["Busy"],"IntervalSeconds":2}],"End":true}}}'
        told = self.complete(mapped(body), "[0,0,0,0,0,0]", mocked({"T": '"0":{"Throw":{"Error":"Busy"}},"1-9999":{"Return":1}'}))
        self.assertEqual(told.outcomes, ["SUCCEEDED [1,1,1,1,1,1]"])

    def test_a_later_wait_may_come_first(self):
        def fails(name, seconds):
            return (
                f'{{"StartAt":"W{name}","States":{{"W{name}":{{"Type":"Wait","Seconds":{seconds},"Next":"F{name}"}},'
                f'"F{name}":{{"Type":"Fail","Error":"{name}"}}}}}}'
            )

        told = self.complete(parallel([fails("A", 1), fails("B", 2)]), chosen="M")
        self.assertEqual(sorted((one.outcome, one.late) for one in told.found), [('FAILED {"Error":"A"}', False), ('FAILED {"Error":"B"}', True)])

    def test_an_outcome_is_late_only_where_a_branch_waits(self):
        fails = ['{"StartAt":"%s","States":{"%s":{"Type":"Fail","Error":"%s"}}}' % (name, name, name) for name in "AB"]
        told = self.complete(parallel(fails), chosen="M")
        self.assertEqual(sorted((one.outcome, one.late) for one in told.found), [('FAILED {"Error":"A"}', False), ('FAILED {"Error":"B"}', False)])
        waits = '{"StartAt":"W","States":{"W":{"Type":"Wait","Seconds":1,"Next":"C"},"C":{"Type":"Fail","Error":"C"}}}'
        told = self.complete(parallel([*fails, waits]), chosen="M")
        self.assertEqual(sorted((one.outcome[-3], one.late) for one in told.found), [("A", False), ("B", False), ("C", True)])

    def test_the_only_outcome_may_be_late(self):
        """A branch goes round for ever, so that no prompt order comes to the one that waits."""
        waits = '{"StartAt":"W","States":{"W":{"Type":"Wait","Seconds":1,"Next":"C"},"C":{"Type":"Fail","Error":"C"}}}'
        told = self.complete(parallel([ROUND, waits]), chosen="M")
        self.assertEqual([(one.outcome, one.late) for one in told.found], [('FAILED {"Error":"C"}', True)])
        told = self.prompt(parallel([ROUND, waits]), chosen="M")
        self.assertEqual((told.found, told.endless is not None), ([], True))

    def prompt(self, definition, given="{}", mocks="{}", chosen="M#c"):
        """What a search found of the orders in which no branch is late. It says that it tried no others, and marks none."""
        ran = self.explore(definition, given, mocks, chosen, "--prompt")
        told = explored(ran.stdout)
        self.assert_noted(ran, told)
        self.assertEqual((told.search, told.notes[0]),
            (PROMPT, "note only orders in which no branch is late: one steps only where none may step earlier"))
        self.assertEqual([one.late for one in told.found], len(told.found) * [False])
        return told

    def test_prompt_orders_have_the_outcomes_that_are_not_late(self):
        def fails(name, seconds):
            return (
                f'{{"StartAt":"W{name}","States":{{"W{name}":{{"Type":"Wait","Seconds":{seconds},"Next":"F{name}"}},'
                f'"F{name}":{{"Type":"Fail","Error":"{name}"}}}}}}'
            )

        at_once = ['{"StartAt":"%s","States":{"%s":{"Type":"Fail","Error":"%s"}}}' % (name, name, name) for name in "DE"]
        retried = (
            '{"StartAt":"T","States":{"T":{"Type":"Task","Resource":"r","Retry":[{"ErrorEquals":["Busy"],"IntervalSeconds":2}],"Next":"G"},'
            '"G":{"Type":"Fail","Error":"G"}}}'
        )
        busy = mocked({"T": '"0":{"Throw":{"Error":"Busy"}},"1-9999":{"Return":1}'})
        for branches, mocks, chosen in [
            ([fails("A", 1), fails("B", 2)], "{}", "M"),
            ([fails("A", 2), fails("B", 2)], "{}", "M"),
            ([fails("A", 1), fails("B", 2), *at_once], "{}", "M"),
            ([fails("A", 1), retried, fails("B", 3)], busy, "M#c"),
            ([fails("A", 3), retried, fails("B", 2)], busy, "M#c"),
        ]:
            definition = parallel(branches)
            every = self.complete(definition, "{}", mocks, chosen)
            told = self.prompt(definition, "{}", mocks, chosen)
            self.assertEqual(sorted(told.outcomes), sorted(one.outcome for one in every.found if not one.late), definition)
            self.assertLessEqual(told.worlds, every.worlds)

    def test_a_prompt_search_lists_the_outcome_of_each_example(self):
        for folder, chosen, given, stored in example_cases():
            words = [f"{folder}/definition.json", f"{folder}/mocks.json", chosen, given]
            told = explored(run_program("explore", *words, "--prompt").stdout)
            every = explored(run_program("explore", *words).stdout)
            self.assertEqual(sorted(told.outcomes), sorted(one.outcome for one in every.found if not one.late), chosen)
            with open(stored, encoding="utf-8") as file:
                self.assertIn(file.read().splitlines()[-1].removeprefix("status "), told.outcomes)

    def test_a_branch_that_waits_beyond_the_time_limit(self):
        definition = '{"StartAt":"W","TimeoutSeconds":5,"States":{"W":{"Type":"Wait","Seconds":10,"End":true}}}'
        told = self.complete(definition, chosen="M")
        self.assertEqual([(one.outcome, one.places, one.late) for one in told.found], [(TIMED_OUT, ["/", "/"], False)])
        self.assertEqual(told.notes, [TIME_LIMIT])

    # ---- a late step ends an execution that has a time limit

    def late_witness(self, definition, given="{}", mocks="{}", chosen="M#c"):
        """What a search found of an execution with a time limit: behind the other outcomes that of a late step, whose steps end so."""
        told = self.complete(definition, given, mocks, chosen)
        self.assertEqual((told.outcomes.index(TIMED_OUT), told.notes), (len(told.found) - 1, [TIME_LIMIT]))
        witness = self.explore(definition, given, mocks, chosen, "--witness", str(len(told.found)))
        self.assertEqual((witness.returncode, witness.stderr), (0, ""))
        first, last = witness.stdout.splitlines()
        self.assertEqual((first.split(" ")[1], last.split(" ")[0]), (START, "/"))
        ran = self.run_texts(definition, mocks, chosen, given, witness.stdout).stdout.splitlines()
        self.assertEqual((ran[1], ran[-1]), ("step / ok", f"status {TIMED_OUT}"))
        return told, first, last, ran[0]

    def test_a_late_step_ends_an_execution_at_any_time(self):
        two = chain("A", 2).replace('"States"', '"TimeoutSeconds":90,"States"', 1)
        told, first, last, reply = self.late_witness(two, chosen="M")
        self.assertEqual([(one.outcome, one.late) for one in told.found], [("SUCCEEDED {}", False), (TIMED_OUT, True)])
        self.assertEqual((first, last, reply), (f"/ {START}", "/ 1970-01-01T00:01:30.000Z", "step / ok"))
        self.assertEqual(self.prompt(two, chosen="M").outcomes, ["SUCCEEDED {}"])

    def test_a_first_step_that_ends_the_execution_is_replaced_by_one_that_is_refused(self):
        one = chain("A", 1).replace('"States"', '"TimeoutSeconds":90,"States"', 1)
        told, first, last, reply = self.late_witness(one, chosen="M")
        self.assertEqual([(one.outcome, one.late) for one in told.found], [("SUCCEEDED {}", False), (TIMED_OUT, True)])
        self.assertEqual((first, reply.startswith("step /0 S")), (f"/0 {START}", True))

    def test_polling_with_waits_and_a_time_limit(self):
        definition = (
            '{"StartAt":"T","TimeoutSeconds":%d,"States":{"T":{%s,"Next":"C"},"C":{"Type":"Choice","Choices":'
            '[{"Variable":"$","StringEquals":"done","Next":"S"}],"Default":"W"},"W":{"Type":"Wait","Seconds":5,"Next":"T"},"S":{"Type":"Succeed"}}}'
        )
        busy = mocked({"T": '"0-2":{"Return":"busy"},"3-9999":{"Return":"done"}'})
        told, *_ = self.late_witness(definition % (60, TASK), "{}", busy)
        self.assertEqual([(one.outcome, one.late) for one in told.found], [('SUCCEEDED "done"', False), (TIMED_OUT, True)])
        for mocks, limit in [(busy, 12), (busy, 15), (mocked({"T": '"0-9999":{"Return":"busy"}'}), 100)]:
            told = self.complete(definition % (limit, TASK), "{}", mocks)
            self.assertEqual([(one.outcome, one.late) for one in told.found], [(TIMED_OUT, False)], limit)
            self.assertEqual(self.prompt(definition % (limit, TASK), "{}", mocks).outcomes, [TIMED_OUT])

    def test_a_search_that_is_cut_lists_the_late_step(self):
        definition = parallel([chain("A", 4, TASK), chain("B", 4, TASK)]).replace('"States"', '"TimeoutSeconds":90,"States"', 1)
        ran = self.explore(definition, "{}", mocked({f"{name}{number}": '"0":{"Return":1}' for name in "AB" for number in range(4)}), "M#c", "--limit", "3")
        told = explored(ran.stdout)
        self.assertEqual((ran.returncode, told.search, told.outcomes), (1, "search cut after 2 steps", [TIMED_OUT]))

    def test_a_search_that_is_cut_lists_what_some_whole_orders_end_in(self):
        item = '{"StartAt":"T","States":{"T":{%s,"End":true}}}' % TASK
        definition = '{"StartAt":"M","States":{"M":{"Type":"Map","End":true,"ItemProcessor":%s}}}' % item
        mocks, given = mocked({"T": ",".join(f'"{number}":{{"Return":{number}}}' for number in range(6))}), "[1,2,3,4,5,6]"
        for words, most in [(["--limit", "20"], 3), (["--limit", "200"], 64), (["--limit", "200", "--prompt"], 64)]:
            told = explored(self.explore(definition, given, mocks, "M#c", *words).stdout)
            self.assertRegex(told.search, r"\Asearch cut")
            self.assertEqual(len(set(told.outcomes)), len(told.outcomes))
            self.assertTrue(1 < len(told.outcomes) <= most, told.outcomes)
            # always the first branch, and always the last
            self.assertEqual(told.outcomes[:2], ["SUCCEEDED [0,1,2,3,4,5]", "SUCCEEDED [5,4,3,2,1,0]"])
            for number, outcome in enumerate(told.outcomes, 1):
                steps = self.explore(definition, given, mocks, "M#c", *words, "--witness", str(number)).stdout
                self.assertEqual(self.run_texts(definition, mocks, "M#c", given, steps).stdout.splitlines()[-1], f"status {outcome}")
        told = explored(self.explore(definition, given, mocks, "M#c", "--limit", "200", "--calls").stdout)
        self.assertEqual(told.outcomes, [])

    # ---- definitions that read the clock

    def test_the_text_that_reads_the_clock_is_told(self):
        for more, place in [
            ('"Parameters":{"at.$":"$$.State.EnteredTime"}', "Parameters/at.$"),
            ('"Parameters":{"at.$":"$$"}', "Parameters/at.$"),
            ('"Parameters":{"at.$":"States.Format(\'{}\', $$.State.EnteredTime)"}', "Parameters/at.$"),
            ('"Parameters":{"at.$":"States.JsonToString($$.State)"}', "Parameters/at.$"),
            ('"Parameters":{"at.$":"$$[\'State\']"}', "Parameters/at.$"),
            ('"Parameters":{"at.$":"States.JsonToString($$[\'State\'])"}', "Parameters/at.$"),
            ('"Parameters":{"list":[1,{"a/b~c.$":"$$.State"},{"d.$":"$$"}]}', "Parameters/list/1/a~1b~0c.$"),
            ('"InputPath":"$$.State.EnteredTime"', "InputPath"),
            ('"Parameters":{"at.$":"States.Format(\'{}-{}\', $$.Execution.Name, $$.State.RetryCount)"}', None),
            ('"Parameters":{"at.$":"$$.State.Name"}', None),
            ('"Parameters":{"at.$":"$$.Execution.StartTime"}', None),
        ]:
            told = self.complete('{"StartAt":"A","States":{"A":{"Type":"Pass",%s,"End":true}}}' % more, chosen="M")
            self.assertEqual(told.notes, [clock_note(f"/States/A/{place}")] if place else [], more)

    def test_the_clock_is_found_in_inner_machines(self):
        reads = '{"StartAt":"I","States":{"I":{"Type":"Pass","Parameters":{"t.$":"$$.State.EnteredTime"},"End":true}}}'
        for definition, place in [
            (parallel([chain("A", 2), reads]), "/States/P/Branches/1/States/I/Parameters/t.$"),
            (mapped(reads), "/States/M/ItemProcessor/States/I/Parameters/t.$"),
            (mapped(chain("A", 1), ',"ItemSelector":{"v.$":"$$.State"}'), "/States/M/ItemSelector/v.$"),
        ]:
            self.assertEqual(self.complete(definition, "[1]", chosen="M").notes, [clock_note(place)], definition)

    def test_steps_at_other_moments_give_other_outcomes_where_the_clock_is_read(self):
        definition = chain("A", 2).replace('"A1":{"Type":"Pass"', '"A1":{"Type":"Pass","Parameters":{"t.$":"$$.State.EnteredTime"}')
        told = self.complete(definition, chosen="M")
        ran = self.run_texts(definition, "{}", "M", "{}", f"/ {START}\n/ 1970-01-01T00:00:07.000Z\n").stdout.splitlines()[-1]
        self.assertEqual((told.search, ran.removeprefix("status ") in told.outcomes), (EARLIEST, False))

    # ---- whatever steps are taken

    def test_random_steps_end_in_a_listed_outcome(self):
        chance = random.Random(46)
        body = (
            '{"StartAt":"T","States":{"T":{"Type":"Task","Resource":"r","Retry":[{"ErrorEquals":["Busy"],"IntervalSeconds":2}],"Next":"U"},'
            '"U":{"Type":"Pass","End":true}}}'
        )
        retried = parallel([chain("A", 2, TASK), chain("B", 2)], ',"Retry":[{"ErrorEquals":["E"],"IntervalSeconds":1,"MaxAttempts":1}]')
        waits = parallel(['{"StartAt":"W","States":{"W":{"Type":"Wait","Seconds":3,"Next":"F"},"F":{"Type":"Fail","Error":"G"}}}', chain("A", 3, TASK)])
        for definition, given, answers in [
            (mapped(body), "[0,0,0]", {"T": '"0":{"Throw":{"Error":"Busy"}},"1":{"Return":1},"2-9999":{"Return":2}'}),
            (retried, "{}", {"A0": FOR_EVER, "A1": '"0":{"Throw":{"Error":"E"}},"1":{"Return":2}'}),
            (waits, "{}", {"A0": FOR_EVER, "A1": FOR_EVER, "A2": '"0":{"Throw":{"Error":"H"}}'}),
        ]:
            mocks = mocked(answers)
            listed = self.complete(definition, given, mocks).outcomes
            seen = set()
            for _ in range(40):
                moment, steps = 0, ""
                for number in range(60):
                    if number and chance.random() < 0.3:
                        moment += chance.randrange(3000)
                    steps += f"{chance.choice(['/', '/', '/0', '/1', '/2'])} 1970-01-01T00:00:{moment // 1000 % 60:02}.{moment % 1000:03}Z\n"
                last = self.run_texts(definition, mocks, "M#c", given, steps).stdout.splitlines()[-1]
                if last != "status RUNNING":
                    seen.add(last.removeprefix("status "))
            self.assertLessEqual(seen, set(listed))
            self.assertTrue(seen)

    def test_late_steps_of_the_examples_end_in_a_listed_outcome(self):
        chance = random.Random(63)
        ended = 0
        for folder, chosen, given, _ in example_cases():
            words = [f"{folder}/definition.json", f"{folder}/mocks.json", chosen, given]
            told = explored(run_program("explore", *words).stdout)
            self.assertEqual(told.search, EVERY)
            places = sorted({place for one in told.found for place in one.places})
            for _ in range(20):
                with tempfile.NamedTemporaryFile("w", prefix="asl-test-") as file:
                    file.write(late_steps(chance, places, 60))
                    file.flush()
                    last = run_program("run", *words, "--steps", file.name).stdout.splitlines()[-1]
                if last != "status RUNNING":
                    ended += 1
                    self.assertIn(last.removeprefix("status "), told.outcomes, chosen)
        self.assertGreater(ended, 300)

    def random_timed_machine(self, chance, name):
        """The text of a machine of a few states: they pass, wait, ask a service that may be retried, or fail."""
        count = chance.randrange(1, 4)
        states = []
        for number in range(count):
            goes = f'"Next":"{name}{number + 1}"' if number < count - 1 else '"End":true'
            row = chance.choice(
                [
                    f'{{"Type":"Pass",{goes}}}',
                    f'{{"Type":"Wait","Seconds":{chance.randrange(1, 4)},{goes}}}',
                    f'{{"Type":"Wait","Timestamp":"1970-01-01T00:00:0{chance.randrange(1, 6)}Z",{goes}}}',
                    f"{{{TASK},{goes}}}",
                    f'{{{TASK},"Retry":[{{"ErrorEquals":["Busy"],"IntervalSeconds":{chance.randrange(1, 3)},"MaxAttempts":1}}],{goes}}}',
                    f'{{"Type":"Fail","Error":"E{name}{number}"}}',
                ]
            )
            states.append(f'"{name}{number}":{row}')
        return f'{{"StartAt":"{name}0","States":{{{",".join(states)}}}}}'

    def test_late_steps_of_random_definitions_end_in_a_listed_outcome(self):
        chance = random.Random(64)
        ended = several = 0
        for _ in range(300):
            machines = [self.random_timed_machine(chance, name) for name in "ABC"[: chance.randrange(1, 4)]]
            caught = chance.choice(["", "", ',"Retry":[{"ErrorEquals":["States.ALL"],"IntervalSeconds":1,"MaxAttempts":1}]'])
            definition = parallel(machines, caught)
            if chance.randrange(3) == 0:
                definition = definition.replace('"States"', f'"TimeoutSeconds":{chance.randrange(1, 9)},"States"', 1)
            tasks = sorted({part.split('"')[-2] for part in definition.split(':{"Type":"Task"')[:-1]})
            answers = [FOR_EVER, '"0":{"Throw":{"Error":"Busy"}},"1-9999":{"Return":1}', '"0":{"Return":0},"1":{"Throw":{"Error":"Busy"}}']
            mocks = mocked({task: chance.choice(answers) for task in tasks})
            told = explored(self.explore(definition, "{}", mocks, "M#c", "--limit", "5000").stdout)
            if not told.complete:
                continue
            self.assertEqual(told.search, EVERY)
            several += len(told.found) > 1
            places = ["/", "/", *[f"/{number}" for number in range(len(machines))]]
            for _ in range(6):
                last = self.run_texts(definition, mocks, "M#c", "{}", late_steps(chance, places, 50)).stdout.splitlines()[-1]
                if last != "status RUNNING":
                    ended += 1
                    self.assertIn(last.removeprefix("status "), told.outcomes, (definition, mocks))
        self.assertGreater(ended, 1000)
        self.assertGreater(several, 60)

    # ---- quiet steps are taken alone

    def test_branches_that_only_pass_are_tried_one_after_another(self):
        for branches, length, worlds in [(4, 5, 22), (6, 5, 32), (12, 10, 122)]:
            definition = parallel([chain(f"B{number}S", length) for number in range(branches)])
            self.assertEqual((self.complete(definition, chosen="M").worlds, self.prompt(definition, chosen="M").worlds), (worlds, worlds))

    def test_a_wait_elsewhere_lets_every_order_be_tried(self):
        definition = parallel([chain("A", 4), chain("B", 4), chain("C", 4), chain("W", 1, '"Type":"Wait","Seconds":1')])
        every, told = self.complete(definition, chosen="M"), self.prompt(definition, chosen="M")
        self.assertEqual(every.outcomes, told.outcomes)
        self.assertGreater(every.worlds, 5 ** 3)
        self.assertLess(told.worlds, 30)

    def test_a_loop_beside_a_branch_that_fails(self):
        loop, other = [
            '{"StartAt":"%s","States":{"%s":{"Type":"Pass","Next":"%s"},"%s":{"Type":"Pass","Next":"%s"}}}' % (one, one, two, two, one)
            for one, two in ("KL", "MN")
        ]
        fails = '{"StartAt":"F","States":{"F":{"Type":"Pass","Next":"G"},"G":{"Type":"Fail","Error":"E"}}}'
        for branches in [[loop, fails], [fails, loop], [loop, other, fails]]:
            for told in [self.complete(parallel(branches), chosen="M"), self.prompt(parallel(branches), chosen="M")]:
                self.assertEqual(told.outcomes, ['FAILED {"Error":"E"}'])

    def random_machine(self, chance, name, deep):
        """The text of a machine of a few states: they pass, choose nothing, fail, ask a service, go back, or fork."""
        states, count = {}, chance.randrange(1, 4)
        for number in range(count):
            here, goes = f"{name}{number}", f'"Next":"{name}{number + 1}"' if number < count - 1 else '"End":true'
            kind = chance.randrange(8 if deep else 6)
            if kind == 0:
                states[here] = f'{{"Type":"Fail","Error":"E{here}"}}'
            elif kind in (1, 2):
                states[here] = f"{{{TASK},{goes}}}"
            elif kind in (3, 4, 5):
                states[here] = f'{{"Type":"Pass",{goes}}}'
            else:
                inner = ",".join(self.random_machine(chance, f"{here}{letter}", False) for letter in "ab"[: chance.randrange(1, 3)])
                caught = chance.choice(
                    [
                        "",
                        f',"Catch":[{{"ErrorEquals":["States.ALL"],"Next":"{name}0"}}]',
                        ',"Retry":[{"ErrorEquals":["States.ALL"],"IntervalSeconds":1,"MaxAttempts":1}]',
                    ]
                )
                states[here] = f'{{"Type":"Parallel","Branches":[{inner}]{caught},{goes}}}'
        rows = ",".join(f'"{here}":{row}' for here, row in states.items())
        return f'{{"StartAt":"{name}0","States":{{{rows}}}}}'

    def test_the_outcomes_are_those_of_every_order(self):
        chance = random.Random(47)
        compared = 0
        for _ in range(40):
            body = parallel([self.random_machine(chance, "A", True), self.random_machine(chance, "B", True), self.random_machine(chance, "C", False)])
            tasks = sorted({part.split('"')[-2] for part in body.split(':{"Type":"Task"')[:-1]})
            answers = {task: chance.choice([FOR_EVER, '"0":{"Throw":{"Error":"T%s"}},"1-9999":{"Return":1}' % task]) for task in tasks}
            waits = body.replace('"StartAt":"P","States":{', '"StartAt":"W","States":{"W":{"Type":"Wait","Seconds":1,"Next":"P"},', 1)
            found = []
            for definition in (body, waits):
                ran = self.explore(definition, "{}", mocked(answers), "M#c", "--limit", "1000", "--prompt")
                found.append(explored(ran.stdout))
            plain = explored(self.explore(waits, "{}", mocked(answers), "M#c", "--limit", "1000").stdout)
            reduced = explored(self.explore(body, "{}", mocked(answers), "M#c", "--limit", "1000").stdout)
            if plain.complete and reduced.complete:
                compared += 1
                self.assertEqual(sorted(plain.outcomes), sorted(reduced.outcomes), body)
            if found[0].complete and found[1].complete:
                self.assertEqual(sorted(found[0].outcomes), sorted(found[1].outcomes), body)
        self.assertGreater(compared, 10)

    # ---- Tasks that are answered alike are asked in quiet steps

    def test_one_answer_for_all_makes_a_search_small(self):
        task_and_passes = chain("T", 4).replace('"T0":{"Type":"Pass"', '"T0":{"Type":"Task","Resource":"r"', 1)
        two_tasks = f'{{"StartAt":"Q","States":{{"Q":{{"Type":"Parallel","Branches":[{chain("A", 2, TASK)},{chain("B", 2, TASK)}],"End":true}}}}}}'
        for definition, items, tasks, most in [
            (mapped(ONE_TASK), 10, ["T"], 13),
            (mapped(ONE_TASK), 100, ["T"], 103),
            (mapped(task_and_passes), 5, ["T0"], 23),
            (mapped(task_and_passes), 100, ["T0"], 403),
            (mapped(two_tasks), 4, ["A0", "A1", "B0", "B1"], 27),
        ]:
            told = self.complete(definition, f"[{','.join('0' * items)}]", mocked({task: FOR_EVER for task in tasks}))
            self.assertEqual(len(told.found), 1)
            self.assertLessEqual(told.worlds, most, definition)
        for branches, length, most in [(5, 4, 23), (8, 4, 35), (10, 10, 103)]:
            names = [f"B{branch}S{number}" for branch in range(branches) for number in range(length)]
            definition = parallel([chain(f"B{branch}S", length, TASK) for branch in range(branches)])
            told = self.complete(definition, mocks=mocked({name: FOR_EVER for name in names}))
            self.assertEqual((told.outcomes, told.worlds <= most), ([f"SUCCEEDED [{','.join('1' * branches)}]"], True))

    def test_a_retried_parallel_of_tasks_that_are_answered_alike(self):
        fails = '{"StartAt":"A0","States":{"A0":{"Type":"Task","Resource":"r","Next":"A1"},"A1":{"Type":"Fail","Error":"E"}}}'
        definition = parallel([fails] + [chain(name, 3, TASK) for name in "BCD"], ',"Retry":[{"ErrorEquals":["E"],"IntervalSeconds":1,"MaxAttempts":1}]')
        mocks = mocked({name: FOR_EVER for name in ["A0"] + [f"{name}{number}" for name in "BCD" for number in range(3)]})
        every, told = self.complete(definition, "{}", mocks), self.prompt(definition, "{}", mocks)
        self.assertEqual((every.outcomes, told.outcomes), (['FAILED {"Error":"E"}'], ['FAILED {"Error":"E"}']))
        self.assertLess(told.worlds, 40)
        self.assertGreater(every.worlds, 1000)

    def test_answers_that_differ_later_are_told_apart(self):
        for answers, wanted in [
            ('"0-1":{"Return":"a"},"2":{"Return":"b"}', 3),
            ('"0":{"Return":"a"},"1-9999":{"Return":"b"}', 3),
            ('"0-1":{"Return":"a"},"2-9999":{"Return":"b"}', 3),
            ('"0":{"Return":"a"},"1":{"Return":"a"},"2-9999":{"Return":"a"}', 1),
            ('"0-2":{"Return":"a"},"3-9999":{"Return":"b"}', 1),
            ('"0-1":{"Return":"a"}', 1),
            ("", 1),
        ]:
            told = self.complete(mapped(ONE_TASK), "[0,0,0]", mocked({"T": answers}))
            self.assertEqual(len(told.found), wanted, answers)

    def test_a_token_that_is_read_tells_who_came_first(self):
        for more, wanted in [
            ('"ResultSelector":{"token.$":"$$.Task.Token"}', 2),
            ('"ResultSelector":{"task.$":"$$.Task"}', 2),
            ('"ResultSelector":{"all.$":"States.JsonToString($$.Task)"}', 2),
            ('"Parameters":{"token.$":"$$.Task.Token"}', 1),
            ('"ResultSelector":{"state.$":"$$.State.Name"}', 1),
        ]:
            body = f'{{"StartAt":"T","States":{{"T":{{{TASK},{more},"End":true}}}}}}'
            told = self.complete(mapped(body), "[0,0]", mocked({"T": FOR_EVER}))
            self.assertEqual(len(told.found), wanted, more)

    def test_a_loop_that_asks_beside_a_branch_that_fails(self):
        loop = '{"StartAt":"T","States":{"T":{"Type":"Task","Resource":"r","Next":"T"}}}'
        fails = '{"StartAt":"F","States":{"F":{"Type":"Pass","Next":"G"},"G":{"Type":"Fail","Error":"E"}}}'
        for branches in [[loop, fails], [fails, loop]]:
            ran = self.explore(parallel(branches), "{}", mocked({"T": FOR_EVER}), "M#c", "--limit", "200")
            told = explored(ran.stdout)
            self.assertEqual((ran.returncode, told.outcomes), (1, ['FAILED {"Error":"E"}']), ran.stdout)

    def test_random_maps_have_the_outcomes_of_every_order(self):
        chance = random.Random(48)
        several = 0
        for _ in range(60):
            body = chain("T", chance.randrange(1, 4), TASK)
            body = body.replace(TASK, '"Type":"Pass"', chance.randrange(2))
            answers = {}
            for number in range(body.count(TASK) + body.count('"Type":"Pass"')):
                first = chance.randrange(3)
                early = "".join(f'"{index}":{{"Return":{chance.randrange(2)}}},' for index in range(first))
                answers[f"T{number}"] = early + chance.choice([f'"{first}-9999":{{"Return":1}}', f'"{first}-9999":{{"Throw":{{"Error":"E{number}"}}}}'])
            more = chance.choice(["", ',"MaxConcurrency":2'])
            given = f"[{','.join('0' * chance.randrange(2, 4))}]"
            reduced = self.complete(mapped(body, more), given, mocked(answers))
            plain = explored(self.explore(mapped(body, more), given, mocked(answers), "M#c", "--calls").stdout)
            self.assertEqual((plain.search, sorted(plain.outcomes)), (EVERY, sorted(reduced.outcomes)), (body, answers))
            several += len(plain.outcomes) > 1
        self.assertGreater(several, 10)

    # ---- orders that never end

    def endless(self, definition, given="{}", mocks="{}", chosen="M#c"):
        """The order that never ends, which a search tells that left out nothing: with each option there is one. Its steps are taken, also
        where the last ones are again and again, and no other steps behind the first ones end the execution."""
        for words in ([], ["--prompt"], ["--calls"]):
            ran = self.explore(definition, given, mocks, chosen, *words)
            told = explored(ran.stdout)
            self.assertEqual((ran.returncode, told.search), (1, PROMPT if "--prompt" in words else EVERY), words)
            self.assertTrue(told.endless, words)
            places = told.endless.stem + 5 * told.endless.round
            ran = self.run_texts(definition, mocks, chosen, given, "".join(f"{place} {START}\n" for place in places))
            lines = ran.stdout.splitlines()
            self.assertEqual(lines[: len(places)], [f"step {place} ok" for place in places])
            self.assertEqual(lines[-1], "status RUNNING")
            chance = random.Random(61)
            for _ in range(20):
                places = told.endless.stem + [chance.choice(["/", "/0", "/1", "/0/0", "/1/0"]) for _ in range(100)]
                ran = self.run_texts(definition, mocks, chosen, given, "".join(f"{place} {START}\n" for place in places))
                self.assertEqual(ran.stdout.splitlines()[-1], "status RUNNING")
        return self.complete(definition, given, mocks, chosen)

    def test_a_state_that_goes_on_to_itself(self):
        told = self.endless(ROUND, chosen="M")
        self.assertEqual((told.outcomes, told.endless), ([], Lasso([], ["/"])))
        told = self.endless('{"StartAt":"B","States":{"B":{"Type":"Pass","Next":"A"},"A":{"Type":"Pass","Next":"B"}}}', chosen="M")
        self.assertEqual((told.outcomes, told.endless), ([], Lasso([], ["/", "/"])))
        ran = self.explore(ROUND, "{}", "{}", "M")
        self.assertEqual(ran.stdout, f"{EVERY}\nworlds 1\noutcomes 0\n\nendless\norder\nloop /\n")

    def test_who_gets_the_wrong_answer_goes_round_for_ever(self):
        rules = '[{"And":[{"Variable":"$.item","NumericEquals":1},{"Variable":"$.answer","NumericEquals":0}],"Next":"A"}]'
        body = (
            '{"StartAt":"T","States":{"T":{%s,"ResultPath":"$.answer","Next":"C"},"C":{"Type":"Choice","Choices":%s,"Default":"S"},'
            '"A":{"Type":"Pass","Next":"A"},"S":{"Type":"Pass","OutputPath":"$.item","End":true}}}'
        ) % (TASK, rules)
        told = self.endless(mapped(body), '[{"item":0},{"item":1}]', mocked({"T": numbered(2)}))
        self.assertEqual(told.outcomes, ["SUCCEEDED [0,1]"])
        self.assertEqual([place for place in told.endless.round if place != "/1"], [])

    def test_a_failure_that_is_caught_again_and_again(self):
        fails = '{"StartAt":"F","States":{"F":{"Type":"Fail","Error":"E"}}}'
        told = self.endless(parallel([fails], ',"Catch":[{"ErrorEquals":["E"],"Next":"P"}]'), chosen="M")
        self.assertEqual((told.outcomes, told.endless.round), ([], ["/", "/0", "/"]))

    def test_a_loop_that_another_branch_may_end(self):
        fails = '{"StartAt":"F","States":{"F":{"Type":"Fail","Error":"E"}}}'
        self.assertIsNone(self.complete(parallel([ROUND, fails]), chosen="M").endless)
        told = self.endless(parallel([ROUND, chain("B", 2)]), chosen="M")
        self.assertEqual(told.outcomes, [])

    def test_a_way_out_that_is_never_taken(self):
        for value, never in [(1, True), (2, False)]:
            definition = (
                '{"StartAt":"A","States":{"A":{"Type":"Pass","Result":%d,"Next":"C"},'
                '"C":{"Type":"Choice","Choices":[{"Variable":"$","NumericEquals":2,"Next":"S"}],"Default":"A"},"S":{"Type":"Succeed"}}}'
            ) % value
            self.assertEqual(self.complete(definition, chosen="M").endless is not None, never)

    def test_polling_ends_with_the_last_answer(self):
        definition = (
            '{"StartAt":"T","States":{"T":{%s,"Next":"C"},"C":{"Type":"Choice","Choices":[{"Variable":"$","StringEquals":"done","Next":"S"}],"Default":"W"},'
            '"W":{"Type":"Wait","Seconds":5,"Next":"T"},"S":{"Type":"Succeed"}}}'
        ) % TASK
        mocks = mocked({"T": '"0-2":{"Return":"busy"},"3":{"Return":"done"}'})
        told = self.complete(definition, "{}", mocks)
        self.assertEqual((told.outcomes, told.endless), (['SUCCEEDED "done"'], None))
        ran = self.explore(definition, "{}", mocked({"T": '"0-9999":{"Return":"busy"}'}), "M#c", "--limit", "200")
        told = explored(ran.stdout)
        self.assertEqual((ran.returncode, told.search[:10], told.outcomes, told.endless), (1, "search cut", [], None))

    def test_retries_end_with_the_last_answer(self):
        task = '{"StartAt":"T","States":{"T":{%s,"Retry":[{"ErrorEquals":["Busy"],"IntervalSeconds":1,"MaxAttempts":99999999}],"End":true}}}' % TASK
        told = self.complete(task, "{}", mocked({"T": '"0-4":{"Throw":{"Error":"Busy"}},"5":{"Return":1}'}))
        self.assertEqual((told.outcomes, told.endless), (["SUCCEEDED 1"], None))
        ran = self.explore(task, "{}", mocked({"T": '"0-9999":{"Throw":{"Error":"Busy"}}'}), "M#c", "--limit", "200")
        told = explored(ran.stdout)
        self.assertEqual((ran.returncode, told.search[:10], told.outcomes, told.endless), (1, "search cut", [], None))

    def test_random_machines_are_endless_with_each_option(self):
        """Where quiet steps are taken alone, as where each is taken."""
        chance = random.Random(62)
        compared = never = 0
        for _ in range(80):
            branches = [self.random_machine(chance, name, name == "A") for name in "AB"]
            if chance.randrange(2):
                branches.append(ROUND.replace('"A"', '"Z"'))
            body = parallel(branches)
            tasks = sorted({part.split('"')[-2] for part in body.split(':{"Type":"Task"')[:-1]})
            mocks = mocked({task: chance.choice([FOR_EVER, '"0":{"Throw":{"Error":"T"}},"1-9999":{"Return":1}']) for task in tasks})
            for words in ([], ["--prompt"]):
                quiet, each = [explored(self.explore(body, "{}", mocks, "M#c", "--limit", "2000", *words, *more).stdout) for more in ([], ["--calls"])]
                if quiet.complete and each.complete:
                    compared += 1
                    never += each.endless is not None
                    self.assertEqual(quiet.endless is None, each.endless is None, (body, mocks, words))
        self.assertGreater(compared, 30)
        self.assertGreater(never, 5)

    # ---- searches that are cut

    def test_an_order_that_is_longer_than_a_history_cuts_the_search(self):
        counts = (
            '{"StartAt":"A","States":{"A":{"Type":"Pass","Parameters":{"n.$":"States.MathAdd($.n, 1)"},"Next":"C"},"C":{"Type":"Choice",'
            '"Choices":[{"Variable":"$.n","NumericGreaterThanEquals":6300,"Next":"S"}],"Default":"A"},"S":{"Type":"Succeed"}}}'
        )
        ran = self.explore(counts, '{"n":0}', chosen="M")
        told = explored(ran.stdout)
        self.assertEqual((ran.returncode, told.search, told.outcomes), (1, "search cut: an order has more steps than a history has room for", []))

    def test_a_loop_that_goes_on_is_cut(self):
        loop = '{"StartAt":"T","States":{"T":{"Type":"Task","Resource":"r","Next":"T"}}}'
        ran = self.explore(loop, "{}", mocked({"T": FOR_EVER}), "M#c", "--limit", "50")
        told = explored(ran.stdout)
        self.assertEqual((ran.returncode, told.search, told.outcomes), (1, "search cut after 50 steps", []))
        self.assertEqual(told.worlds, 51)

    def test_a_loop_that_comes_back_is_searched_whole(self):
        told = self.complete(ROUND, chosen="M")
        self.assertEqual((told.worlds, told.outcomes, told.endless), (1, [], Lasso([], ["/"])))

    def test_a_search_of_just_so_many_worlds_is_complete(self):
        definition = parallel([chain("A", 2), chain("B", 2)])
        worlds = self.complete(definition, chosen="M").worlds
        for limit, search in [(worlds, EVERY), (worlds - 1, "search cut after ")]:
            ran = self.explore(definition, "{}", "{}", "M", "--limit", str(limit))
            self.assertTrue(explored(ran.stdout).search.startswith(search), ran.stdout)

    def test_outcomes_of_fewer_steps_come_first(self):
        fails = '{"StartAt":"F","States":{"F":{"Type":"Fail","Error":"E"}}}'
        told = self.complete(parallel([chain("A", 3), fails]), chosen="M")
        lengths = [len(one.places) for one in told.found]
        self.assertEqual(lengths, sorted(lengths))

    # ---- words and faults

    def test_wrong_command_lines(self):
        definition = parallel([chain("A", 2), chain("B", 2)])
        for words in [("--limit", "0"), ("--limit", "1000001"), ("--limit", "x"), ("--witness", "0"), ("--witness", "2"), ("--witness", "x"), ("more",),
                ("--format", "tree"), ("--format", "steps"), ("--witness", "1", "--format", "aws"), ("--witness", "2", "--format", "tree")]:
            ran = self.explore(definition, "{}", "{}", "M", *words)
            self.assertEqual((ran.returncode, ran.stdout), (2, ""), words)
            self.assertRegex(ran.stderr, r"\Aerror: [^\n]+\n")

    def test_faults_are_those_of_run(self):
        good = chain("A", 2)
        for definition, given, mocks, chosen in [
            ("{", "{}", "{}", "M"),
            (good, "{", "{}", "M"),
            (good, "{}", "{", "M"),
            (good, "{}", "{}", "M#c"),
            ("{", "{", "{", "M#c"),
            (good, "{", "{", "M#c"),
        ]:
            ran = self.explore(definition, given, mocks, chosen)
            self.assertEqual((ran.returncode, ran.stdout), (2, ""))
            self.assertEqual(without_mending(ran.stderr), without_mending(self.run_texts(definition, mocks, chosen, given, None).stderr))

    def test_files_that_cannot_be_read(self):
        with tempfile.TemporaryDirectory(prefix="asl-test-") as room:
            ran = run_program("explore", f"{room}/none.json", f"{room}/no.json", "M", f"{room}/not.json")
            self.assertEqual((ran.returncode, ran.stdout, ran.stderr), (2, "", f"fault: file {room}/none.json\n"))
