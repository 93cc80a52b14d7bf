"""The members that objects of definitions may have: the Amazon States Language's tables, written down once more for tests alone."""
from typing import NamedTuple

from definitions import STATE, Frame


class Part(NamedTuple):
    """Members behind one another, each with what its value is to be and a value that fits; and members that aren't needed where one of
    these is tried, and may not stand beside it."""

    instead: list
    rows: list


class Shape(NamedTuple):
    """An object of a definition: a definition without faults around its members, those that it can't be without, those that are enough,
    and all its members in canonical order."""

    frame: Frame
    required: list
    enough: list
    parts: list


COMMENT = ("Comment", "Text", '"c"')
QUERY_LANGUAGE = ("QueryLanguage", "QueryLanguage", '"JSONPath"')
START_AT = ("StartAt", "Target", '"B"')
STATES = ("States", "States", '{"B":{"Type":"Succeed"}}')
INPUT_PATH = ("InputPath", "PathOrNull", '"$.i"')
PARAMETERS = ("Parameters", "Template", '{"b":1,"a.$":"$.a"}')
RESULT_SELECTOR = ("ResultSelector", "Template", '{"r.$":"$"}')
RESULT_PATH = ("ResultPath", "PlaceOrNull", '"$.r"')
OUTPUT_PATH = ("OutputPath", "PathOrNull", '"$.o"')
ERROR_EQUALS = ("ErrorEquals", "ErrorNames", '["E","F"]')

# How a state goes on.
NEXT = Part(
    instead=["End"],
    rows=[
        ("Next", "Target", '"A"'),
    ],
)

END = Part(
    instead=[],
    rows=[
        ("End", "End", "true"),
    ],
)

# What becomes of the result of a Task, Parallel or Map.
RESULT = Part(
    instead=[],
    rows=[
        RESULT_SELECTOR,
        RESULT_PATH,
        OUTPUT_PATH,
        ("Retry", "Retriers", '[{"ErrorEquals":["E"]},{"ErrorEquals":["States.ALL"]}]'),
        ("Catch", "Catchers", '[{"ErrorEquals":["E"],"Next":"A"}]'),
    ],
)

DEFINITION_PARTS = [
    Part(
        instead=[],
        rows=[
            COMMENT,
            QUERY_LANGUAGE,
            ("Version", "Version", '"1.0"'),
            START_AT,
            ("TimeoutSeconds", "FromOne", "5"),
            STATES,
        ],
    ),
]

MACHINE = ["StartAt", "States"]

MACHINE_PARTS = [
    Part(
        instead=[],
        rows=[
            COMMENT,
            START_AT,
            STATES,
        ],
    ),
]

ITEM_PROCESSOR_PARTS = [
    Part(
        instead=[],
        rows=[
            COMMENT,
            ("ProcessorConfig", "ProcessorConfig", '{"Mode":"INLINE"}'),
            START_AT,
            STATES,
        ],
    ),
]

PROCESSOR_CONFIG_PARTS = [
    Part(
        instead=[],
        rows=[
            ("Mode", "Mode", '"INLINE"'),
        ],
    ),
]

PASS_PARTS = [
    Part(
        instead=[],
        rows=[
            ("Type", "Type", '"Pass"'),
            COMMENT,
            QUERY_LANGUAGE,
            INPUT_PATH,
            PARAMETERS,
            ("Result", "Any", '{"End":false,"a":[]}'),
            RESULT_PATH,
            OUTPUT_PATH,
        ],
    ),
    NEXT,
    END,
]

TASK_PARTS = [
    Part(
        instead=[],
        rows=[
            ("Type", "Type", '"Task"'),
            COMMENT,
            QUERY_LANGUAGE,
            ("Resource", "Text", '"r"'),
            INPUT_PATH,
            PARAMETERS,
            ("Credentials", "Any", '{"z":1,"a":2}'),
            ("TimeoutSeconds", "FromOne", "9"),
            ("TimeoutSecondsPath", "Path", '"$.t"'),
            ("HeartbeatSeconds", "FromOne", "8"),
            ("HeartbeatSecondsPath", "Path", '"$.h"'),
        ],
    ),
    RESULT,
    NEXT,
    END,
]

CHOICE_PARTS = [
    Part(
        instead=[],
        rows=[
            ("Type", "Type", '"Choice"'),
            COMMENT,
            QUERY_LANGUAGE,
            INPUT_PATH,
            ("Choices", "Rules", '[{"Variable":"$.v","IsNull":true,"Next":"A"}]'),
            ("Default", "Target", '"A"'),
            OUTPUT_PATH,
        ],
    ),
]

WAIT_PARTS = [
    Part(
        instead=[],
        rows=[
            ("Type", "Type", '"Wait"'),
            COMMENT,
            QUERY_LANGUAGE,
            INPUT_PATH,
        ],
    ),
    Part(
        instead=["Seconds"],
        rows=[
            ("Seconds", "FromZero", "5"),
            ("SecondsPath", "Path", '"$.s"'),
            ("Timestamp", "Timestamp", '"2024-01-01T00:00:00Z"'),
            ("TimestampPath", "Path", '"$.t"'),
        ],
    ),
    Part(
        instead=[],
        rows=[
            OUTPUT_PATH,
        ],
    ),
    NEXT,
    END,
]

PARALLEL_PARTS = [
    Part(
        instead=[],
        rows=[
            ("Type", "Type", '"Parallel"'),
            COMMENT,
            QUERY_LANGUAGE,
            INPUT_PATH,
            PARAMETERS,
            ("Branches", "Machines", '[{"StartAt":"B","States":{"B":{"Type":"Succeed"}}},{"StartAt":"C","States":{"C":{"Type":"Fail"}}}]'),
        ],
    ),
    RESULT,
    NEXT,
    END,
]

MAP_PARTS = [
    Part(
        instead=[],
        rows=[
            ("Type", "Type", '"Map"'),
            COMMENT,
            QUERY_LANGUAGE,
            INPUT_PATH,
            ("ItemsPath", "Path", '"$.l"'),
            ("MaxConcurrency", "FromZero", "3"),
            PARAMETERS,
            ("ItemSelector", "Template", '{"i.$":"$$.Map.Item.Value"}'),
        ],
    ),
    Part(
        instead=["Iterator"],
        rows=[
            ("Iterator", "Machine", '{"StartAt":"B","States":{"B":{"Type":"Succeed"}}}'),
            ("ItemProcessor", "Machine", '{"ProcessorConfig":{"Mode":"INLINE"},"StartAt":"B","States":{"B":{"Type":"Succeed"}}}'),
        ],
    ),
    RESULT,
    NEXT,
    END,
]

SUCCEED_PARTS = [
    Part(
        instead=[],
        rows=[
            ("Type", "Type", '"Succeed"'),
            COMMENT,
            QUERY_LANGUAGE,
            INPUT_PATH,
            OUTPUT_PATH,
        ],
    ),
]

FAIL_PARTS = [
    Part(
        instead=[],
        rows=[
            ("Type", "Type", '"Fail"'),
            COMMENT,
            QUERY_LANGUAGE,
            ("Error", "Text", '"e"'),
            ("ErrorPath", "PathOrCall", '"$.e"'),
            ("Cause", "Text", '"c"'),
            ("CausePath", "PathOrCall", '''"States.Format('c')"'''),
        ],
    ),
]

RULE_HEAD = Part(
    instead=[],
    rows=[
        COMMENT,
        ("Variable", "Path", '"$.v"'),
    ],
)

CONNECTIVES = Part(
    instead=["Variable", "IsNull"],
    rows=[
        ("And", "InnerRules", '[{"Variable":"$.v","IsPresent":true},{"Variable":"$.v","NumericEquals":1}]'),
        ("Or", "InnerRules", '[{"Comment":"c","Variable":"$.v","IsNull":false}]'),
        ("Not", "InnerRule", '{"Variable":"$.v","StringMatches":"a*"}'),
    ],
)

# The operators of rules.
OPERATORS = Part(
    instead=["IsNull"],
    rows=[
        ("StringEquals", "Text", '"s"'),
        ("StringEqualsPath", "Path", '"$.p"'),
        ("StringLessThan", "Text", '"s"'),
        ("StringLessThanPath", "Path", '"$.p"'),
        ("StringGreaterThan", "Text", '"s"'),
        ("StringGreaterThanPath", "Path", '"$.p"'),
        ("StringLessThanEquals", "Text", '"s"'),
        ("StringLessThanEqualsPath", "Path", '"$.p"'),
        ("StringGreaterThanEquals", "Text", '"s"'),
        ("StringGreaterThanEqualsPath", "Path", '"$.p"'),
        ("NumericEquals", "Number", "1"),
        ("NumericEqualsPath", "Path", '"$.p"'),
        ("NumericLessThan", "Number", "-1"),
        ("NumericLessThanPath", "Path", '"$.p"'),
        ("NumericGreaterThan", "Number", "1.50"),
        ("NumericGreaterThanPath", "Path", '"$.p"'),
        ("NumericLessThanEquals", "Number", "1e1"),
        ("NumericLessThanEqualsPath", "Path", '"$.p"'),
        ("NumericGreaterThanEquals", "Number", "0"),
        ("NumericGreaterThanEqualsPath", "Path", '"$.p"'),
        ("TimestampEquals", "Timestamp", '"2024-01-01T00:00:00Z"'),
        ("TimestampEqualsPath", "Path", '"$.p"'),
        ("TimestampLessThan", "Timestamp", '"2024-01-01T00:00:00.5Z"'),
        ("TimestampLessThanPath", "Path", '"$.p"'),
        ("TimestampGreaterThan", "Timestamp", '"2024-01-01T00:00:00+01:00"'),
        ("TimestampGreaterThanPath", "Path", '"$.p"'),
        ("TimestampLessThanEquals", "Timestamp", '"2024-01-01T00:00:00-01:00"'),
        ("TimestampLessThanEqualsPath", "Path", '"$.p"'),
        ("TimestampGreaterThanEquals", "Timestamp", '"2024-01-01T00:00:00Z"'),
        ("TimestampGreaterThanEqualsPath", "Path", '"$.p"'),
        ("BooleanEquals", "Truth", "true"),
        ("BooleanEqualsPath", "Path", '"$.p"'),
        ("StringMatches", "Text", r'"a*b\\*"'),
        ("IsNull", "Truth", "true"),
        ("IsPresent", "Truth", "false"),
        ("IsNumeric", "Truth", "true"),
        ("IsString", "Truth", "false"),
        ("IsBoolean", "Truth", "true"),
        ("IsTimestamp", "Truth", "false"),
    ],
)

INNER_RULE_PARTS = [
    RULE_HEAD,
    CONNECTIVES,
    OPERATORS,
]

# Around the members of the second rule of a Choice state.
RULE = Frame('{"StartAt":"A","States":{"A":{"Type":"Choice","Choices":[{"Variable":"$","IsNull":true,"Next":"A"},{', "}]}}}", "/States/A/Choices/1")

# Around the members of a rule in another's `Not`.
INNER_RULE = Frame('{"StartAt":"A","States":{"A":{"Type":"Choice","Choices":[{"Not":{', '},"Next":"A"}]}}}', "/States/A/Choices/0/Not")

# Around the members of the last retrier of a Task state.
RETRIER = Frame('{"StartAt":"A","States":{"A":{"Type":"Task","Resource":"r","Retry":[{"ErrorEquals":["D"]},{', '}],"End":true}}}', "/States/A/Retry/1")

# Around the members of the last catcher of a Task state.
CATCHER = Frame('{"StartAt":"A","States":{"A":{"Type":"Task","Resource":"r","Catch":[{"ErrorEquals":["D"],"Next":"A"},{',
    '}],"End":true}}}', "/States/A/Catch/1")

RULE_PARTS = [
    RULE_HEAD,
    CONNECTIVES,
    OPERATORS,
    Part(
        instead=[],
        rows=[
            ("Next", "Target", '"A"'),
        ],
    ),
]

RETRIER_PARTS = [
    Part(
        instead=[],
        rows=[
            COMMENT,
            ERROR_EQUALS,
            ("IntervalSeconds", "FromOne", "3"),
            ("MaxAttempts", "FromZero", "2"),
            ("BackoffRate", "Rate", "1.5"),
            ("MaxDelaySeconds", "DelayLimit", "60"),
            ("JitterStrategy", "Jitter", '"FULL"'),
        ],
    ),
]

CATCHER_PARTS = [
    Part(
        instead=[],
        rows=[
            COMMENT,
            ERROR_EQUALS,
            RESULT_PATH,
            ("Next", "Target", '"A"'),
        ],
    ),
]

# A definition, states of each type, and the objects in them.
OBJECTS = {
    "definition": Shape(Frame("{", "}", ""), MACHINE, MACHINE, DEFINITION_PARTS),
    "pass": Shape(STATE, ["Type"], ["Type", "End"], PASS_PARTS),
    "task": Shape(STATE, ["Type", "Resource"], ["Type", "Resource", "End"], TASK_PARTS),
    "choice": Shape(STATE, ["Type", "Choices"], ["Type", "Choices"], CHOICE_PARTS),
    "wait": Shape(STATE, ["Type"], ["Type", "Seconds", "End"], WAIT_PARTS),
    "parallel": Shape(STATE, ["Type", "Branches"], ["Type", "Branches", "End"], PARALLEL_PARTS),
    "map": Shape(STATE, ["Type"], ["Type", "Iterator", "End"], MAP_PARTS),
    "succeed": Shape(STATE, ["Type"], ["Type"], SUCCEED_PARTS),
    "fail": Shape(STATE, ["Type"], ["Type"], FAIL_PARTS),
    "branch": Shape(Frame('{"StartAt":"A","States":{"A":{"Type":"Parallel","Branches":[{"StartAt":"Y","States":{"Y":{"Type":"Succeed"}}},{',
        '}],"End":true}}}', "/States/A/Branches/1"), MACHINE, MACHINE, MACHINE_PARTS),
    "iterator": Shape(Frame('{"StartAt":"A","States":{"A":{"Type":"Map","Iterator":{', '},"End":true}}}', "/States/A/Iterator"), MACHINE,
        MACHINE, MACHINE_PARTS),
    "rule": Shape(RULE, ["Variable", "Next"], ["Variable", "IsNull", "Next"], RULE_PARTS),
    "negated_rule": Shape(INNER_RULE, ["Variable"], ["Variable", "IsNull"], INNER_RULE_PARTS),
    "rule_in_or": Shape(Frame('{"StartAt":"A","States":{"A":{"Type":"Choice","Choices":[{"Or":[{"Variable":"$","IsNull":true},{',
        '}],"Next":"A"}]}}}', "/States/A/Choices/0/Or/1"), ["Variable"], ["Variable", "IsNull"], INNER_RULE_PARTS),
    "retrier": Shape(RETRIER, ["ErrorEquals"], ["ErrorEquals"], RETRIER_PARTS),
    "catcher": Shape(CATCHER, ["ErrorEquals", "Next"], ["ErrorEquals", "Next"], CATCHER_PARTS),
    "item_processor": Shape(Frame('{"StartAt":"A","States":{"A":{"Type":"Map","ItemProcessor":{', '},"End":true}}}',
        "/States/A/ItemProcessor"), MACHINE, MACHINE, ITEM_PROCESSOR_PARTS),
    "processor_config": Shape(Frame('{"StartAt":"A","States":{"A":{"Type":"Map","ItemProcessor":{"ProcessorConfig":{',
        '},"StartAt":"B","States":{"B":{"Type":"Succeed"}}},"End":true}}}', "/States/A/ItemProcessor/ProcessorConfig"), [], [], PROCESSOR_CONFIG_PARTS),
}
