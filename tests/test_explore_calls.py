"""What `explore` tells beyond outcomes: how often Tasks are invoked in the orders that end in each, and what is remarkable."""
import random
import re

from program import run_program
from test_explore import FOR_EVER, ONE_TASK, TASK, Searches, chain, example_cases, explored, mapped, mocked, numbered, parallel

FAIL = '{"StartAt":"F","States":{"F":{"Type":"Fail","Error":"E"}}}'
WAIT = '{"StartAt":"W","States":{"W":{"Type":"Wait","Seconds":1,"End":true}}}'
BUSY = '{"StartAt":"T","States":{"T":{"Type":"Task","Resource":"r","Retry":[{"ErrorEquals":["Busy"],"IntervalSeconds":2}],"End":true}}}'


def scheduled(lines):
    """How often each Task was invoked in a run that printed these lines."""
    counts = {}
    for line in lines:
        found = re.match(r"\d+ \d+ \S+ \S+ TaskScheduled (\"[^\"]*\") ", line)
        if found:
            counts[found[1][1:-1]] = counts.get(found[1][1:-1], 0) + 1
    return counts


def entered(lines):
    """The states that were entered in a run that printed these lines."""
    return {found[1] for found in (re.match(r"\d+ \d+ \S+ \S+ [A-Za-z]+StateEntered \"([^\"]*)\" ", line) for line in lines) if found}


def random_steps(chance, places, count):
    """Steps of any of these branches, at moments that now and then are a second later."""
    moment, steps = 0, []
    for number in range(count):
        moment += 1000 * (number > 0 and chance.random() < 0.2)
        steps.append(f"{chance.choice(places)} 1970-01-01T00:00:{moment // 1000:02}.000Z\n")
    return "".join(steps)


def span(told):
    """The lowest and the highest number of a text, as 0-2 or 4."""
    low, _, high = told.partition("-")
    return int(low), int(high or low)


class Telling(Searches):
    def told(self, definition, given="{}", mocks="{}", chosen="M#c", *words):
        """What a search says that left out nothing."""
        ran = self.explore(definition, given, mocks, chosen, *words)
        told = explored(ran.stdout)
        self.assert_noted(ran, told)
        self.assertTrue(told.complete, told.search)
        return told

    def calls(self, definition, given="{}", mocks="{}", *words):
        """How often Tasks are invoked, by outcomes."""
        return {one.outcome: one.calls for one in self.told(definition, given, mocks, "M#c", "--calls", *words).found}

    # ---- how often Tasks are invoked

    def test_calls_that_differ_between_orders(self):
        for definition, given, mocks, wanted in [
            (parallel([FAIL, chain("A", 1, TASK)]), "{}", mocked({"A0": FOR_EVER}), {'FAILED {"Error":"E"}': [("A0", "0-1")]}),
            (
                parallel([FAIL, chain("A", 3, TASK)]),
                "{}",
                mocked({name: FOR_EVER for name in ["A0", "A1", "A2"]}),
                {'FAILED {"Error":"E"}': [("A0", "0-1"), ("A1", "0-1"), ("A2", "0-1")]},
            ),
            (mapped(ONE_TASK), "[0,0,0]", mocked({"T": FOR_EVER}), {"SUCCEEDED [1,1,1]": [("T", "3")]}),
            (mapped(ONE_TASK), "[0,0,0]", mocked({"T": '"0":{"Throw":{"Error":"E"}},"1-9999":{"Return":1}'}), {'FAILED {"Error":"E"}': [("T", "1")]}),
            (
                mapped(ONE_TASK),
                "[0,0,0]",
                mocked({"T": '"0":{"Return":1},"1":{"Throw":{"Error":"E"}},"2-9999":{"Return":1}'}),
                {'FAILED {"Error":"E"}': [("T", "2")]},
            ),
            (BUSY, "{}", mocked({"T": '"0-1":{"Throw":{"Error":"Busy"}},"2":{"Return":1}'}), {"SUCCEEDED 1": [("T", "3")]}),
            (chain("A", 2), "{}", mocked({}), {"SUCCEEDED {}": []}),
        ]:
            self.assertEqual(self.calls(definition, given, mocks), wanted, definition)

    def test_calls_by_outcomes(self):
        one = '{"StartAt":"A","States":{"A":{"Type":"Task","Resource":"r","Next":"B"},"B":{"Type":"Task","Resource":"r","End":true}}}'
        definition = parallel([one, chain("C", 1, TASK)])
        mocks = mocked({"A": FOR_EVER, "B": '"0":{"Throw":{"Error":"B"}}', "C0": '"0":{"Throw":{"Error":"C"}}'})
        self.assertEqual(
            self.calls(definition, "{}", mocks),
            {'FAILED {"Error":"B"}': [("A", "1"), ("B", "1")], 'FAILED {"Error":"C"}': [("A", "0-1"), ("C0", "1")]},
        )

    def test_calls_of_prompt_orders(self):
        waits = '{"StartAt":"W","States":{"W":{"Type":"Wait","Seconds":1,"Next":"F"},"F":{"Type":"Fail","Error":"E"}}}'
        definition, mocks = parallel([waits, chain("A", 2, TASK)]), mocked({"A0": FOR_EVER, "A1": FOR_EVER})
        self.assertEqual(self.calls(definition, "{}", mocks), {'FAILED {"Error":"E"}': [("A0", "0-1"), ("A1", "0-1")]})
        self.assertEqual(self.calls(definition, "{}", mocks, "--prompt"), {'FAILED {"Error":"E"}': [("A0", "1"), ("A1", "1")]})

    def test_without_the_word_no_calls_are_told(self):
        told = self.told(mapped(ONE_TASK), "[0,0]", mocked({"T": FOR_EVER}))
        self.assertEqual([one.calls for one in told.found], [[]])

    def test_calls_change_no_outcome(self):
        """With them each branch steps in each world that is met, so there may be more worlds, and more that is remarkable."""
        for folder, chosen, given, _ in example_cases():
            words = [f"{folder}/definition.json", f"{folder}/mocks.json", chosen, given]
            runs = [run_program("explore", *words), run_program("explore", *words, "--calls")]
            plain, counted = [explored(ran.stdout) for ran in runs]
            self.assertEqual(runs[0].returncode, runs[1].returncode, chosen)
            self.assertEqual(*[sorted((one.outcome, one.late) for one in told.found) for told in (plain, counted)], chosen)
            self.assertEqual((plain.search, plain.endless, plain.notes), (counted.search, counted.endless, counted.notes), chosen)
            self.assertEqual(*[[it for it in told.remarks if it.startswith("never ")] for told in (plain, counted)], chosen)
            self.assertLessEqual(set(plain.remarks), set(counted.remarks), chosen)
            self.assertLessEqual(plain.worlds, counted.worlds, chosen)

    def test_each_bound_is_met_by_an_order_and_none_is_beyond(self):
        chance = random.Random(47)
        waits = '{"StartAt":"W","States":{"W":{"Type":"Wait","Seconds":3,"Next":"F"},"F":{"Type":"Fail","Error":"G"}}}'
        retried = parallel([chain("A", 2, TASK), chain("B", 2, TASK)], ',"Retry":[{"ErrorEquals":["E"],"IntervalSeconds":1,"MaxAttempts":1}]')
        for definition, given, mocks in [
            (parallel([FAIL, chain("A", 3, TASK)]), "{}", mocked({name: FOR_EVER for name in ["A0", "A1", "A2"]})),
            (parallel([waits, chain("A", 2, TASK), chain("B", 1, TASK)]), "{}", mocked({name: FOR_EVER for name in ["A0", "A1", "B0"]})),
            (mapped(BUSY), "[0,0,0]", mocked({"T": '"0":{"Throw":{"Error":"Busy"}},"1":{"Throw":{"Error":"E"}},"2-9999":{"Return":2}'})),
            (retried, "{}", mocked({"A0": FOR_EVER, "A1": '"0":{"Throw":{"Error":"E"}},"1":{"Return":2}', "B0": FOR_EVER, "B1": FOR_EVER})),
        ]:
            listed = self.calls(definition, given, mocks)
            met = {}
            for _ in range(150):
                steps = random_steps(chance, ["/", "/0", "/1", "/2"], 40)
                lines = self.run_texts(definition, mocks, "M#c", given, steps).stdout.splitlines()
                outcome = lines[-1].removeprefix("status ")
                if outcome == "RUNNING":
                    continue
                counts = scheduled(lines)
                told = dict(listed[outcome])
                self.assertLessEqual(set(counts), set(told))
                for name, text in told.items():
                    count = counts.get(name, 0)
                    low, high = span(text)
                    self.assertTrue(low <= count <= high, (definition, outcome, name, count, text))
                    met.setdefault((outcome, name), set()).add(count)
            for (outcome, name), counts in met.items():
                self.assertEqual((min(counts), max(counts)), span(dict(listed[outcome])[name]), (definition, outcome, name))

    def test_the_witnesses_of_the_examples_are_within_their_bounds(self):
        for folder, chosen, given, stored in example_cases():
            words = [f"{folder}/definition.json", f"{folder}/mocks.json", chosen, given]
            told = explored(run_program("explore", *words, "--calls").stdout)
            with open(stored, encoding="utf-8") as file:
                lines = file.read().splitlines()
            outcome = next(one for one in told.found if f"status {one.outcome}" == lines[-1])
            counts = scheduled(lines)
            self.assertLessEqual(set(counts), {name for name, _ in outcome.calls})
            for name, text in outcome.calls:
                low, high = span(text)
                self.assertTrue(low <= counts.get(name, 0) <= high, (chosen, name))

    def test_a_cut_search_tells_what_it_met(self):
        loop = '{"StartAt":"T","States":{"T":{"Type":"Task","Resource":"r","Next":"T"}}}'
        ran = self.explore(parallel([loop, FAIL]), "{}", mocked({"T": FOR_EVER}), "M#c", "--limit", "20", "--calls")
        told = explored(ran.stdout)
        self.assertTrue(told.search.startswith("search cut"))
        self.assertEqual([(one.outcome, [name for name, _ in one.calls]) for one in told.found], [('FAILED {"Error":"E"}', ["T"])])
        low, high = span(told.found[0].calls[0][1])
        self.assertEqual(low, 0)
        self.assertGreater(high, 2)

    # ---- what is remarkable

    def remarks(self, definition, given="{}", mocks="{}", chosen="M#c", *words):
        """What is remarkable of a search that left out nothing."""
        return self.told(definition, given, mocks, chosen, *words).remarks

    def test_answers_that_branches_share(self):
        two = '{"StartAt":"T","States":{"T":{"Type":"Task","Resource":"r","Next":"U"},"U":{"Type":"Task","Resource":"r","End":true}}}'
        for definition, given, answers, wanted in [
            (mapped(ONE_TASK), "[0,0]", {"T": numbered(2)}, ['shared "T"']),
            (mapped(ONE_TASK), "[0,0]", {"T": FOR_EVER}, []),
            (mapped(ONE_TASK), "[0]", {"T": numbered(1)}, []),
            (mapped(ONE_TASK, ',"MaxConcurrency":1'), "[0,0]", {"T": numbered(2)}, []),
            (mapped(ONE_TASK), "[0,0,0]", {"T": '"0":{"Return":"a"},"1-9999":{"Return":"b"}'}, ['shared "T"']),
            (mapped(ONE_TASK), "[0,0]", {"T": '"0":{"Return":"a"}'}, ['shared "T"']),
            (mapped(ONE_TASK), "[0,0]", {"T": '"0-1":{"Return":"a"},"2-9999":{"Return":"b"}'}, ['never answered "T" 2-9999']),
            (mapped(two), "[0,0]", {"T": FOR_EVER, "U": numbered(2)}, ['shared "U"']),
            (parallel([chain("A", 1, TASK), chain("B", 1, TASK)]), "{}", {"A0": numbered(1), "B0": numbered(1)}, []),
        ]:
            self.assertEqual(self.remarks(definition, given, mocked(answers)), wanted, (definition, given))

    def test_iterations_that_take_turns_share_nothing(self):
        first = '{"StartAt":"T","States":{"T":{"Type":"Task","Resource":"r","Next":"M"},"M":{"Type":"Pass","End":true}}}'
        body = mapped(ONE_TASK)
        again = f'{{"StartAt":"M1","States":{{"M1":{{"Type":"Map","MaxConcurrency":1,"ItemProcessor":{first},"End":true}}}}}}'
        answers = mocked({"T": '"0":{"Return":"a"},"1-9999":{"Return":"b"}'})
        self.assertEqual(self.remarks(body, "[0,0]", answers), ['shared "T"'])
        self.assertEqual(self.remarks(again, "[0,0]", answers), [])

    def test_states_that_no_order_enters(self):
        choice = (
            '{"StartAt":"C","States":{"C":{"Type":"Choice","Choices":[{"Variable":"$","IsNull":true,"Next":"A"}],"Default":"B"},'
            '"A":{"Type":"Succeed"},"B":{"Type":"Parallel","Branches":[%s],"End":true}}}'
        ) % chain("D", 2)
        self.assertEqual(self.remarks(choice, "null", chosen="M"), ['never entered "B"', 'never entered "D0"', 'never entered "D1"'])
        self.assertEqual(self.remarks(choice, "1", chosen="M"), ['never entered "A"'])

    def test_names_are_json_texts(self):
        definition = '{"StartAt":"A","States":{"A":{"Type":"Succeed"},"a\\n\\"b":{"Type":"Succeed"}}}'
        self.assertEqual(self.remarks(definition, "1", chosen="M"), ['never entered "a\\n\\"b"'])

    def test_random_steps_enter_just_the_states_that_are_not_told(self):
        chance = random.Random(48)
        caught = ',"Catch":[{"ErrorEquals":["E"],"Next":"X"},{"ErrorEquals":["G"],"Next":"Y"},{"ErrorEquals":["H"],"Next":"Z"}]'
        waits = '{"StartAt":"W","States":{"W":{"Type":"Wait","Seconds":1,"Next":"V"},"V":{"Type":"Fail","Error":"G"}}}'
        definition = parallel([chain("A", 2, TASK), waits, chain("B", 1, TASK)], caught)
        definition = definition.removesuffix("}}") + ',"X":{"Type":"Pass","End":true},"Y":{"Type":"Pass","End":true},"Z":{"Type":"Pass","End":true}}}'
        names = {"P", "A0", "A1", "W", "V", "B0", "X", "Y", "Z"}
        for last, never in [('"0":{"Throw":{"Error":"E"}}', {"Z"}), ('"0":{"Return":1}', {"X", "Z"})]:
            mocks = mocked({"A0": FOR_EVER, "A1": last, "B0": FOR_EVER})
            told = self.remarks(definition, "{}", mocks)
            self.assertEqual({line[len('never entered "'):-1] for line in told if line.startswith("never entered ")}, never)
            seen = set()
            for _ in range(80):
                steps = random_steps(chance, ["/", "/0", "/1", "/2"], 30)
                seen |= entered(self.run_texts(definition, mocks, "M#c", "{}", steps).stdout.splitlines())
            self.assertEqual(seen, names - never)

    def test_states_that_only_late_orders_enter(self):
        def waits(name, seconds):
            return (
                f'{{"StartAt":"W{name}","States":{{"W{name}":{{"Type":"Wait","Seconds":{seconds},"Next":"F{name}"}},'
                f'"F{name}":{{"Type":"Fail","Error":"{name}"}}}}}}'
            )

        definition = parallel([waits("A", 1), waits("B", 2)])
        self.assertNotIn('never entered "FB"', self.remarks(definition, chosen="M"))
        self.assertIn('never entered "FB"', self.remarks(definition, "{}", "{}", "M", "--prompt"))

    def test_answers_that_no_order_asks_for(self):
        for given, answers, wanted in [
            ("[0,0]", numbered(2), ['shared "T"']),
            ("[0,0]", numbered(4), ['shared "T"', 'never answered "T" 2', 'never answered "T" 3']),
            ("[0,0]", '"0-1":{"Return":1},"4-6":{"Return":2}', ['never answered "T" 4-6']),
            ("[0,0]", '"0":{"Return":1},"1":{"Return":1},"2-9":{"Return":1},"10":{"Return":2}', ['never answered "T" 10']),
            ("[0,0]", FOR_EVER, []),
        ]:
            self.assertEqual(self.remarks(mapped(ONE_TASK), given, mocked({"T": answers})), wanted, answers)

    def test_the_last_step_asks_too(self):
        self.assertEqual(self.remarks(ONE_TASK, "{}", mocked({"T": numbered(1)})), [])
        self.assertEqual(self.remarks(ONE_TASK, "{}", mocked({"T": '"0":{"Throw":{"Error":"E"}}'})), [])

    def test_a_task_that_fails_before_it_asks(self):
        definition = '{"StartAt":"T","States":{"T":{"Type":"Task","Resource":"r","Parameters":{"x.$":"$.no"},"End":true}}}'
        self.assertEqual(self.remarks(definition, "{}", mocked({"T": numbered(1)})), ['never answered "T" 0'])

    def test_answers_to_a_task_that_is_not_entered_are_not_told_apart(self):
        definition = '{"StartAt":"A","States":{"A":{"Type":"Succeed"},"T":{"Type":"Task","Resource":"r","End":true}}}'
        self.assertEqual(self.remarks(definition, "{}", mocked({"T": numbered(3)})), ['never entered "T"'])

    def test_states_in_which_a_branch_is_stopped(self):
        for definition, given, mocks, wanted in [
            (parallel([FAIL, WAIT]), "{}", mocked({}), ['cut off "W"']),
            (parallel([FAIL, chain("A", 3)]), "{}", mocked({}), []),
            (parallel([FAIL, BUSY]), "{}", mocked({"T": '"0":{"Throw":{"Error":"Busy"}},"1-9999":{"Return":1}'}), ['cut off "T"']),
            (parallel([FAIL, BUSY]), "{}", mocked({"T": FOR_EVER}), []),
            (
                parallel([FAIL, '{"StartAt":"Q","States":{"Q":{"Type":"Parallel","Branches":[%s],"End":true}}}' % WAIT]),
                "{}",
                mocked({}),
                ['cut off "Q"', 'cut off "W"'],
            ),
        ]:
            self.assertEqual(self.remarks(definition, given, mocks), wanted, definition)

    def test_a_branch_that_is_stopped_while_it_waits_past_the_time_limit(self):
        late = WAIT.replace('"Seconds":1', '"Seconds":10')
        definition = parallel([FAIL, late]).replace('"StartAt":"P"', '"StartAt":"P","TimeoutSeconds":5', 1)
        for words in ([], ["--calls"]):
            self.assertEqual(self.remarks(definition, "{}", "{}", "M", *words), ['cut off "W"'], words)

    def test_a_cut_search_does_not_tell_what_never_happens(self):
        loop = '{"StartAt":"T","States":{"T":{"Type":"Task","Resource":"r","Next":"T"},"U":{"Type":"Succeed"}}}'
        ran = self.explore(loop, "{}", mocked({"T": FOR_EVER}), "M#c", "--limit", "5")
        self.assertEqual(explored(ran.stdout).remarks, [])
        ran = self.explore(mapped(ONE_TASK), "[0,0,0,0]", mocked({"T": numbered(9)}), "M#c", "--limit", "6")
        self.assertEqual(explored(ran.stdout).remarks, ['shared "T"'])

    def test_the_lines_stand_in_order(self):
        inner = '{"StartAt":"T","States":{"T":{"Type":"Task","Resource":"r","Next":"W"},"W":{"Type":"Wait","Seconds":1,"End":true},"N":{"Type":"Succeed"}}}'
        definition = parallel([FAIL, mapped(inner)])
        told = self.told(definition, "[0,0]", mocked({"T": numbered(4)}))
        self.assertEqual(told.remarks, ['shared "T"', 'never entered "N"', 'never answered "T" 2', 'never answered "T" 3', 'cut off "M"', 'cut off "W"'])

    def test_remarks_stand_before_notes(self):
        definition = '{"StartAt":"A","TimeoutSeconds":100,"States":{"A":{"Type":"Succeed"},"B":{"Type":"Succeed"}}}'
        ran = self.explore(definition, "{}", "{}", "M")
        note = 'note time limit: a late step ends the execution at any time, as TIMED_OUT {"Error":"States.Timeout"}\n'
        self.assertTrue(ran.stdout.endswith('\n\nnever entered "B"\n' + note))
