"""What run tells on standard error of a state that raised an error: what was looked for, in which member, and what is there instead."""
import json

from program import ProgramTest, answered

INPUT = json.dumps({"a": {"sum": 1, "x y": [1, 2]}, "t": "5", "n": 7, "l": [1], "e": {}})


def machine(members, name="S"):
    """A definition of one state with these members."""
    return '{"StartAt":"%s","States":{"%s":{%s}}}' % (name, name, members)


# The members of a state, and what is told of it behind its name and its place.
TOLD = [
    ('"Type":"Pass","End":true,"InputPath":"$.a.total"', 'InputPath: $.a.total names nothing: $.a has no "total"; it has "sum", "x y"'),
    ('"Type":"Pass","End":true,"InputPath":"$.a[\'q\'].b"', "InputPath: $.a['q'].b names nothing: $.a has no 'q'; it has \"sum\", \"x y\""),
    ('"Type":"Pass","End":true,"InputPath":"$.n.x"', "InputPath: $.n.x names nothing: $.n is a number: 7, and no object"),
    ('"Type":"Pass","End":true,"InputPath":"$.a[0]"', 'InputPath: $.a[0] names nothing: $.a is an object: {"sum":1,"x y":[1,2]}, and no list'),
    ('"Type":"Pass","End":true,"InputPath":"$.l[3].z"', "InputPath: $.l[3].z names nothing: $.l has 1 items"),
    ('"Type":"Pass","End":true,"InputPath":"$.l.z"', "InputPath: $.l.z names nothing: $.l is a list: [1], and no object"),
    ('"Type":"Pass","End":true,"InputPath":"$.e.z"', 'InputPath: $.e.z names nothing: $.e has no "z"; it is empty'),
    ('"Type":"Pass","End":true,"InputPath":"$$.Execution.Nome"', 'InputPath: $$.Execution.Nome names nothing: $$.Execution has no "Nome"; it has "Id", "Name", "Input", "StartTime"'),
    ('"Type":"Pass","End":true,"OutputPath":"$.b"', 'OutputPath: $.b names nothing: $ has no "b"; it has "a", "t", "n", "l", "e"'),
    ('"Type":"Pass","End":true,"ResultPath":"$.n.b"', "ResultPath: $.n.b names nothing: $.n is a number: 7, and no object"),
    ('"Type":"Pass","End":true,"Parameters":{"k":[{"x.$":"$.a.sum"},{"x.$":"$.a.q"}]}', 'Parameters/k/1/x.$: $.a.q names nothing: $.a has no "q"; it has "sum", "x y"'),
    ('"Type":"Pass","End":true,"Parameters":{"x.$":"States.StringToJson($.t)","y.$":"States.MathAdd($.n, $.t)"}', 'Parameters/y.$: "States.MathAdd($.n, $.t)" has an argument of a wrong type; $.n is a number: 7; $.t is a text: "5"'),
    ('"Type":"Pass","End":true,"Parameters":{"y.$":"States.Format(\'{} $.x, {}\', $.n, $.q)"}', 'Parameters/y.$: "States.Format(\'{} $.x, {}\', $.n, $.q)" has a path that names nothing; $.n is a number: 7; $.q names nothing: $ has no "q"; it has "a", "t", "n", "l", "e"'),
    ('"Type":"Wait","End":true,"SecondsPath":"$.t"', 'SecondsPath: $.t is a text: "5", and no whole number from 0 to 99999999'),
    ('"Type":"Wait","End":true,"TimestampPath":"$.n"', "TimestampPath: $.n is a number: 7, and no timestamp"),
    ('"Type":"Choice","Choices":[{"Variable":"$.a.q","NumericEquals":1,"Next":"S"}]', '$.a.q names nothing: $.a has no "q"; it has "sum", "x y"'),
    ('"Type":"Fail","ErrorPath":"$.n","Cause":"c"', "ErrorPath: $.n is a number: 7, and no text"),
    ('"Type":"Map","End":true,"ItemsPath":"$.a","ItemProcessor":%s' % machine('"Type":"Pass","End":true', "I"), 'ItemsPath: $.a is an object: {"sum":1,"x y":[1,2]}, and no list that a Map can go over'),
    ('"Type":"Map","End":true,"ItemsPath":"$.l","ItemSelector":{"v.$":"$$.Map.Item.Value.z"},"ItemProcessor":%s' % machine('"Type":"Pass","End":true', "I"), "ItemSelector/v.$: $$.Map.Item.Value.z names nothing: $$.Map.Item.Value is a number: 1, and no object"),
]


class WhyTest(ProgramTest):
    def ran(self, definition, mocks=answered('"0":{"Return":1}'), given=INPUT, steps=None):
        """What run does for these texts."""
        return self.run_texts(definition, mocks, "M#c", given, steps)

    def test_each_kind_of_error_says_what_is_there_instead(self):
        for members, told in TOLD:
            with self.subTest(members):
                ran = self.ran(machine(members))
                self.assertEqual((ran.returncode, ran.stderr), (1, f'note: "S" at /: {told}\n'))

    def test_the_answer_of_a_service_is_what_a_selector_goes_from(self):
        task = '"Type":"Task","Resource":"r","End":true,"ResultSelector":{"total.$":"$.Payload.total"}'
        ran = self.ran(machine(task, "W"), answered('"0":{"Return":{"Payload":{"sum":3}}}'))
        self.assertEqual((ran.returncode, ran.stderr), (1, 'note: "W" at /: ResultSelector/total.$: $.Payload.total names nothing: $.Payload has no "total"; it has "sum"\n'))

    def test_the_branch_is_told_that_the_outcome_stands_for(self):
        good, bad = machine('"Type":"Pass","End":true', "A"), machine('"Type":"Pass","End":true,"InputPath":"$.q"', "B")
        ran = self.ran(machine(f'"Type":"Parallel","End":true,"Branches":[{good},{bad}]'), given='{"x":1}')
        self.assertEqual((ran.returncode, ran.stderr), (1, 'note: "B" at /1: InputPath: $.q names nothing: $ has no "q"; it has "x"\n'))

    def test_what_says_all_by_itself_gets_no_line(self):
        fails = ['"Type":"Fail","Error":"E","Cause":"$.a: no value"', '"Type":"Fail","Error":"States.Runtime","Cause":"$.a: no value"']
        for members in fails:
            ran = self.ran(machine(members))
            self.assertEqual((ran.returncode, ran.stderr), (1, ""))
        ran = self.ran(machine('"Type":"Task","Resource":"r","End":true', "W"), answered('"0":{"Throw":{"Error":"States.Runtime","Cause":"InputPath: no value"}}'))
        self.assertEqual((ran.returncode, ran.stderr), (1, ""))

    def test_an_error_that_is_caught_is_not_told(self):
        task = '"Type":"Task","Resource":"r","Next":"F","Parameters":{"x.$":"$.q"},"Catch":[{"ErrorEquals":["States.ParameterPathFailure"],"Next":"F"}]'
        definition = '{"StartAt":"W","States":{"W":{%s},"F":{"Type":"Fail","Error":"E"}}}' % task
        ran = self.ran(definition)
        self.assertEqual((ran.returncode, ran.stderr), (1, ""))

    def test_a_run_by_steps_tells_it_too(self):
        definition = machine('"Type":"Pass","End":true,"InputPath":"$.q"')
        ran = self.ran(definition, given='{"x":1}', steps="/ 2024-01-01T00:00:00Z\n")
        self.assertEqual((ran.returncode, ran.stderr), (1, 'note: "S" at /: InputPath: $.q names nothing: $ has no "q"; it has "x"\n'))

    def test_a_test_says_why_its_execution_failed(self):
        tests = [{"machine": "M", "case": "c", "input": {"x": 1}, "status": status} for status in ("SUCCEEDED", "FAILED")]
        ran = self.suite_texts(machine('"Type":"Pass","End":true,"InputPath":"$.q"'), answered('"0":{"Return":1}'), json.dumps(tests))
        why = '"S" at /: InputPath: $.q names nothing: $ has no "q"; it has "x"'
        self.assertEqual(ran.returncode, 1)
        self.assertEqual(ran.stderr.splitlines()[-2:], [f'note: test 1 "M#c": {why}', f'note: test 2 "M#c": {why}'])

    def test_characters_that_do_not_show_are_told_by_their_numbers(self):
        definition = machine('"Type":"Pass","End":true,"InputPath":"$.q"')
        ran = self.ran(definition, given='{"\\u202ex":1}')
        self.assertEqual(ran.stderr, 'note: "S" at /: InputPath: $.q names nothing: $ has no "q"; it has "\\u202ex"\n')
