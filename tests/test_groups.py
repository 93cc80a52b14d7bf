"""Members of which at most one, or exactly one, may stand in an object."""
from definitions import STATE, DefinitionTest
from members import INNER_RULE, RULE

ENDS = [("Next", '"A"'), ("End", "true")]
RULES = '[{"Variable":"$","IsNull":true}]'
TESTS = [("IsNull", "true"), ("StringEquals", '"s"'), ("NumericLessThanPath", '"$.p"'), ("BooleanEquals", "false")]
CONNECTIVES = [("And", RULES), ("Or", RULES), ("Not", '{"Variable":"$","IsNull":true}')]
# The machine of a Map in either spelling.
PROCESSORS = [("Iterator", '{"StartAt":"B","States":{"B":{"Type":"Succeed"}}}'), ("ItemProcessor", '{"StartAt":"C","States":{"C":{"Type":"Succeed"}}}')]
# The template for the inputs of its iterations.
SELECTORS = [("Parameters", "{}"), ("ItemSelector", '{"a":1}')]
# Where the members stand, the other members of the object, what is told where none is there, and members of which no two stand together.
GROUPS = [
    (STATE, '"Type":"Pass"', "F9 Neither", ENDS),
    (STATE, '"Type":"Task","Resource":"r"', "F9 Neither", ENDS),
    (STATE, '"Type":"Wait","Seconds":1', "F9 Neither", ENDS),
    (STATE, '"Type":"Parallel","Branches":[{"StartAt":"B","States":{"B":{"Type":"Succeed"}}}]', "F9 Neither", ENDS),
    (STATE, '"Type":"Map","Iterator":{"StartAt":"B","States":{"B":{"Type":"Succeed"}}}', "F9 Neither", ENDS),
    (STATE, '"Type":"Map","ItemProcessor":{"StartAt":"B","States":{"B":{"Type":"Succeed"}}}', "F9 Neither", ENDS),
    (STATE, '"Type":"Map","ItemSelector":{},"End":true', "F9 Neither", PROCESSORS),
    (STATE, '"Type":"Map","Iterator":{"StartAt":"B","States":{"B":{"Type":"Succeed"}}},"End":true', "ok", SELECTORS),
    (STATE, '"Type":"Map","ItemProcessor":{"StartAt":"B","States":{"B":{"Type":"Succeed"}}},"End":true', "ok", SELECTORS),
    (STATE, '"Type":"Wait","End":true', "F9 Neither", [("Seconds", "5"), ("SecondsPath", '"$.s"'), ("Timestamp", '"2024-01-01T00:00:00Z"'),
        ("TimestampPath", '"$.t"')]),
    (STATE, '"Type":"Task","Resource":"r","End":true', "ok", [("TimeoutSeconds", "5"), ("TimeoutSecondsPath", '"$.t"')]),
    (STATE, '"Type":"Task","Resource":"r","End":true', "ok", [("HeartbeatSeconds", "5"), ("HeartbeatSecondsPath", '"$.t"')]),
    (STATE, '"Type":"Fail"', "ok", [("Error", '"e"'), ("ErrorPath", '"$.e"')]),
    (STATE, '"Type":"Fail"', "ok", [("Cause", '"c"'), ("CausePath", '"$.c"')]),
    (RULE, '"Variable":"$","Next":"A"', "F9 Neither", TESTS),
    (INNER_RULE, '"Variable":"$"', "F9 Neither", TESTS),
    (RULE, '"Next":"A"', "F9 Neither", CONNECTIVES),
    (INNER_RULE, '"Comment":"c"', "F9 Neither", CONNECTIVES),
    (RULE, '"Next":"A"', "F9 Neither", [("Variable", '"$"'), ("And", RULES)]),
    (INNER_RULE, '"Comment":"c"', "F9 Neither", [("Variable", '"$"'), ("Not", '{"Variable":"$","IsNull":true}')]),
]


class GroupTest(DefinitionTest):
    def test_no_two_stand_together(self):
        wanted = []
        for frame, others, none, members in GROUPS:
            wanted.append((frame, others, none))
            # Of two the later one is told.
            for one in members:
                for two in members:
                    if one != two:
                        wanted.append((frame, '%s,"%s":%s,"%s":%s' % (others, *one, *two), f"F8 Both /{two[0]}"))
        self.assert_parts(wanted)
