"""The files that are read beside a definition, member by member, as docs/FORMATS.md tells of them: JSON texts, and the project file, whose TOML has values as JSON's.

tools/schemas writes them as JSON Schemas; tests/test_schemas.py compares them with what the program reads.
"""
from typing import NamedTuple


class Value(NamedTuple):
    """A value without members of its own, by the words of JSON Schema that it has to meet."""

    words: dict


class Member(NamedTuple):
    """A member of an object: its name, what it holds, which values it may have, whether it has to be there, and the member that it may stand for."""

    name: str
    about: str
    shape: object
    is_required: bool = False
    stands_for: str | None = None


class Object(NamedTuple):
    """An object with these members: whether others may stand beside them, how many there are, where that is fixed, and which need another one beside them."""

    members: list
    takes_others: bool = False
    count: int | None = None
    needs: dict = {}


class Table(NamedTuple):
    """An object from names of the user's own, of this pattern, if they have one, to values."""

    about: str
    shape: object
    pattern: str | None = None


class List(NamedTuple):
    """A list of values."""

    about: str
    shape: object


class File(NamedTuple):
    """A file: what it is, and what its text holds."""

    name: str
    title: str
    about: str
    shape: object


ANY = Value({})
TEXT = Value({"type": "string"})
TEXT_OR_NULL = Value({"type": ["string", "null"]})
COUNT = Value({"type": "integer", "minimum": 0})
STATUS = Value({"enum": ["SUCCEEDED", "FAILED", "TIMED_OUT"]})
STAMP = r"[0-9]{4}-[0-9]{2}-[0-9]{2}T[0-9]{2}:[0-9]{2}:[0-9]{2}(\.[0-9]+)?(Z|[+-][0-9]{2}:[0-9]{2})"
STEP = Value({"type": "string", "pattern": rf"^(/|(/(0|[1-9][0-9]{{0,8}}))+) {STAMP}$"})

THROWN = Object(
    [
        Member("Error", "The name of the error", TEXT, True),
        Member("Cause", "Its cause", TEXT),
    ]
)
ANSWER = Object(
    [
        Member("Return", "What the service returns: any value", ANY),
        Member("Throw", "The error that the service answers with", THROWN),
    ],
    count=1,
)
RESPONSE = Table("The answer to the invocations of these numbers, counted from 0: N, or low-high with both ends", ANSWER, "^[0-9]{1,9}(-[0-9]{1,9})?$")
CASE = Table("The name of the response that answers the Task of this name", TEXT)
MACHINE = Object(
    [
        Member("TestCases", "The test cases, by their names: in each, the names of Tasks, and of the responses that answer them", Table("A test case", CASE), True),
    ],
    takes_others=True,
)
MOCKS = Object(
    [
        Member("StateMachines", "The state machines, by their names", Table("A state machine", MACHINE)),
        Member("MockedResponses", "The responses, by their names", Table("The answers of a response, by the numbers of the invocations", RESPONSE)),
    ],
    takes_others=True,
)

TEST = Object(
    [
        Member("machine", "The machine's name in the mock file", TEXT, True),
        Member("case", "The test case's name; with an empty text no Task has an answer", TEXT, True),
        Member("input", "The execution's input: any value", ANY, True),
        Member("inputFile", "The name of a file with the execution's input, in place of input; it goes from the folder of this file", TEXT, stands_for="input"),
        Member("status", "How the execution is to end", STATUS, True),
        Member("name", "What the test is called", TEXT),
        Member("steps", "The steps that the execution takes, in place of those that come next", List("A line of a steps file: a place and a moment", STEP)),
        Member("output", "A value that is to mean the same as the output", ANY),
        Member("match", "A value that the output is to hold", ANY),
        Member("error", "The name of the error that the execution is to end in; null: the error output is to have none", TEXT_OR_NULL),
        Member("cause", "The cause that the execution is to end with; null: the error output is to have none", TEXT_OR_NULL),
        Member("visits", "How often each of these states is to be entered", Table("How often the state of this name is to be entered", COUNT)),
        Member(
            "invocations",
            "How often each of these Tasks is to invoke its service, retries and iterations included",
            Table("How often the Task of this name is to invoke its service", COUNT),
        ),
        Member(
            "calls",
            "The inputs that the service of each of these Tasks is to be invoked with, one after another",
            Table("The inputs for the service of the Task of this name", List("The effective input of an invocation: any value", ANY)),
        ),
    ]
)
EXPECTATIONS = List("A test: what is run, and how it is to end", TEST)

WORKFLOW = Object(
    [
        Member("definition", "The file of its definition", TEXT, True),
        Member("mocks", "Its mock file", TEXT),
        Member("machine", "The name of its machine in the mock file; without it, the only one there", TEXT),
        Member("tests", "Its expectation files", List("An expectation file", TEXT)),
        Member("input", "The file of the input where one is wanted and none is given", TEXT),
        Member("ignore", "The rules whose warnings aren't told of it", List("The name of a rule", TEXT)),
    ],
    needs={"tests": "mocks"},
)
PROJECT = Object([Member("workflow", "The workflows", List("A workflow: its files", WORKFLOW))])

FILES = [
    File("mocks", "Mock file", "What Tasks answer in test cases: the MockConfigFile.json of AWS Step Functions Local.", MOCKS),
    File("expectations", "Expectation file", "The tests of a suite, which `asl test` runs.", EXPECTATIONS),
    File("project", "Project file", "The files of workflows: asl.toml.", PROJECT),
]
