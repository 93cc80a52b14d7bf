"""What run and explore tell on standard error of answers that were lacking."""
import os
import tempfile

from program import TOP, ProgramTest, run_program

TASK = '"Type":"Task","Resource":"r"'
MOCKS = """{"StateMachines":{"M":{"TestCases":{"c":{"Charge card":"one"},"none":{}}}},
"MockedResponses":{"one":{"0":{"Throw":{"Error":"E"}},"1":{"Return":1}}}}"""
# It is invoked three times: answer 2 lacks.
LOOP = """{"StartAt":"Charge card","States":{
"Charge card":{%s,"Retry":[{"ErrorEquals":["E"]}],"Next":"Again"},
"Again":{"Type":"Pass","Next":"Charge card"}}}""" % TASK
# Each of two branches asks for an answer: the one that asks last has none.
RACE = """{"StartAt":"P","States":{"P":{"Type":"Parallel","Branches":[
{"StartAt":"A","States":{"A":{"Type":"Pass","Next":"W"},"W":{%s,"End":true}}},
{"StartAt":"B","States":{"B":{"Type":"Pass","Next":"V"},"V":{%s,"End":true}}}],"End":true}}}""" % (TASK, TASK)

# Branch 0 has branches of its own, of which the first asks for an answer; branch 1 is to be filled in.
NESTED = """{"StartAt":"P","States":{"P":{"Type":"Parallel",%%s"Branches":[
{"StartAt":"Q","States":{"Q":{"Type":"Parallel","End":true,"Branches":[
{"StartAt":"W","States":{"W":{%s,"End":true}}},{"StartAt":"A","States":{"A":{"Type":"Pass","End":true}}}]}}},
%%s],"End":true},"F":{"Type":"Fail","Error":"X"}}}""" % TASK
TASK_V = '{"StartAt":"V","States":{"V":{%s,%%s"End":true},"B":{"Type":"Pass","End":true}}}' % TASK
FAIL_V = '{"StartAt":"V","States":{"V":{"Type":"Fail","Error":"E"}}}'


class NotesTest(ProgramTest):
    def ran(self, command, definition, mocks, chosen, *words, given="{}"):
        """What a command does for these texts."""
        with tempfile.TemporaryDirectory(prefix="asl-test-") as room:
            names = []
            for name, text in [("definition.json", definition), ("mocks.json", mocks), ("input.json", given)]:
                names.append(os.path.join(room, name))
                with open(names[-1], "w", encoding="utf-8") as out:
                    out.write(text)
            return run_program(command, names[0], names[1], chosen, names[2], *words)

    def test_a_run_tells_which_answer_it_lacked(self):
        for form in ["text", "json", "aws", "steps", "tree", "data"]:
            with self.subTest(form):
                ran = self.ran("run", LOOP, MOCKS, "M#c", "--format", form)
                self.assertEqual((ran.returncode, ran.stderr), (1, 'note: case "c" has no answer 2 of the Task "Charge card"\n'))
                self.assertNotIn("note:", ran.stdout)

    def test_quiet_tells_no_note(self):
        for words in (["run", LOOP, MOCKS, "M#c"], ["run", LOOP, MOCKS, "M#c", "--max-steps", "2"], ["explore", RACE, '{"StateMachines":{"M":{"TestCases":{"c":{}}}}}', "M#c"]):
            told, hushed = self.ran(*words), self.ran(*words, "--quiet")
            self.assertEqual((hushed.returncode, hushed.stdout, hushed.stderr), (told.returncode, told.stdout, ""), words)
            self.assertTrue(told.stderr.startswith("note: "), words)

    def test_a_run_by_steps_tells_it_too(self):
        steps = self.ran("run", LOOP, MOCKS, "M#c", "--format", "steps").stdout
        ran = self.run_texts(LOOP, MOCKS, "M#c", "{}", steps)
        self.assertEqual((ran.returncode, ran.stderr), (1, 'note: case "c" has no answer 2 of the Task "Charge card"\n'))
        # so far all is answered
        ran = self.run_texts(LOOP, MOCKS, "M#c", "{}", "".join(steps.splitlines(keepends=True)[:3]))
        self.assertEqual((ran.returncode, ran.stderr), (1, ""))

    def stepped(self, definition, mocks, places):
        """Status and note of a run whose branches step in this order."""
        steps = "".join(f"{place} 2024-01-01T00:00:00Z\n" for place in places.split())
        ran = self.run_texts(definition, mocks, "M#c", "{}", steps)
        self.assertNotIn(" S", "".join(line for line in ran.stdout.splitlines(keepends=True) if line.startswith("step")))
        return ran.stdout.splitlines()[-1], ran.stderr

    def test_what_failed_elsewhere_meanwhile_is_not_told(self):
        # behind the lacking answer of /0/0 the Task of /1 fails, and its error is caught
        definition = NESTED % ("", TASK_V % '"Catch":[{"ErrorEquals":["E"],"Next":"B"}],')
        mocks = MOCKS.replace("Charge card", "V")
        status, note = self.stepped(definition, mocks, "/ /0 /0/0 /1 /0 /")
        self.assertEqual(status, 'status FAILED {"Error":"States.Runtime","Cause":"no mocked answer"}')
        self.assertEqual(note, 'note: case "c" has no answer 0 of the Task "W"\n')

    def test_of_two_lacking_answers_the_one_is_told_that_the_outcome_stands_for(self):
        branch = '{"StartAt":"R","States":{"R":{"Type":"Parallel","End":true,"Branches":[%s]}}}' % (TASK_V % "")
        for last, name in [("/0 /", "W"), ("/1 /", "V")]:
            status, note = self.stepped(NESTED % ("", branch), MOCKS, f"/ /0 /1 /0/0 /1/0 {last}")
            self.assertEqual(status, 'status FAILED {"Error":"States.Runtime","Cause":"no mocked answer"}')
            self.assertEqual(note, f'note: case "c" has no answer 0 of the Task "{name}"\n')

    def test_nothing_is_told_where_another_failure_decided(self):
        for catch, places, error in [("", "/ /0 /0/0 /1 /", "E"), ('"Catch":[{"ErrorEquals":["E"],"Next":"F"}],', "/ /0 /0/0 /1 / /", "X")]:
            status, note = self.stepped(NESTED % (catch, FAIL_V), MOCKS, places)
            self.assertEqual((status, note), (f'status FAILED {{"Error":"{error}"}}', ""))

    def test_no_case_is_chosen(self):
        for chosen in ["M", "M#", "", "Other"]:
            ran = self.ran("run", LOOP, MOCKS, chosen)
            self.assertEqual(ran.stderr, 'note: no case is chosen, so there is no answer 0 of the Task "Charge card"\n')
        ran = self.ran("run", LOOP, MOCKS, "M#none")
        self.assertEqual(ran.stderr, 'note: case "none" has no answer 0 of the Task "Charge card"\n')

    def test_the_iteration_that_failed_is_told_of(self):
        items = '{"StartAt":"E","States":{"E":{%s,"End":true}}}' % TASK
        definition = '{"StartAt":"M","States":{"M":{"Type":"Map","ItemsPath":"$.items","Iterator":%s,"End":true}}}' % items
        mocks = '{"StateMachines":{"M":{"TestCases":{"c":{"E":"a"}}}},"MockedResponses":{"a":{"0-1":{"Return":1}}}}'
        for form in ["text", "tree"]:
            ran = self.ran("run", definition, mocks, "M#c", "--format", form, given='{"items":[1,2,3]}')
            self.assertEqual(ran.stderr, 'note: case "c" has no answer 2 of the Task "E"\n')

    def test_nothing_is_told_where_no_answer_lacked(self):
        caught = '{"StartAt":"T","States":{"T":{%s,"Catch":[{"ErrorEquals":["E"],"Next":"F"}],"End":true},"F":{%s}}}'
        failing = '"Type":"Fail","Error":"States.Runtime","Cause":"no mocked answer"'
        mocks = MOCKS.replace("Charge card", "T")
        for last in ['"Type":"Succeed"', failing, '"Type":"Fail","Error":"X"']:
            ran = self.ran("run", caught % (TASK, last), mocks, "M#c")
            self.assertEqual(ran.stderr, "", last)
        thrown = MOCKS.replace('{"Error":"E"}', '{"Error":"States.Runtime","Cause":"no mocked answer"}')
        ran = self.ran("run", LOOP, thrown, "M#c")
        self.assertEqual((ran.returncode, ran.stderr), (1, ""))

    def test_a_note_is_one_line_that_shows(self):
        definition = LOOP.replace('"Charge card"', '"a\\n\u202e\\"b"')
        ran = self.ran("run", definition, "{}", "M")
        self.assertEqual(ran.stderr, 'note: no case is chosen, so there is no answer 0 of the Task "a\\n\\u202e\\"b"\n')

    def test_a_search_tells_each_lacking_answer_once(self):
        mocks = '{"StateMachines":{"M":{"TestCases":{"c":{"W":"a"}}}},"MockedResponses":{"a":{"0":{"Return":1}}}}'
        ran = self.ran("explore", RACE, mocks, "M#c")
        self.assertEqual((ran.returncode, ran.stderr), (1, 'note: case "c" has no answer 0 of the Task "V"\n'))
        ran = self.ran("explore", RACE, "{}", "M")
        # both branches lack one, and whichever fails first, the outcome is the same: that of its steps is told
        told = [f'note: no case is chosen, so there is no answer 0 of the Task "{name}"\n' for name in ["V", "W"]]
        self.assertIn(ran.stderr, told)
        ran = self.ran("explore", RACE, mocks, "M#c", "--witness", "1")
        self.assertEqual((ran.returncode, ran.stderr), (0, ""))

    def test_the_examples_lack_no_answer(self):
        definition, mocks, given = [f"{TOP}/examples/order/{name}.json" for name in ["definition", "mocks", "input"]]
        ran = run_program("run", definition, mocks, "order#shipped", given)
        self.assertEqual(ran.stderr, "")
