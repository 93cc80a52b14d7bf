"""Definitions that the built program judges and prints, for the tests beside this file."""
import os
import tempfile
from concurrent.futures import ThreadPoolExecutor
from typing import NamedTuple

from program import ProgramTest, run_program, without_mending


class Frame(NamedTuple):
    """The text of a definition around a part of it, and the place of that part."""

    before: str
    behind: str
    place: str

    def around(self, part):
        return f"{self.before}{part}{self.behind}"


# Around the members of the state A, the only one.
STATE = Frame('{"StartAt":"A","States":{"A":{', "}}}", "/States/A")


def line_at(fault, place):
    """The line of a fault whose place is told from a place on: `F6 WrongType /x` at `/States/A` is `F6 WrongType /States/A/x`."""
    words, slash, inside = fault.partition("/")
    return f"{words}{place}/{inside}" if slash else f"{fault} {place}"


def answer(text):
    """What a definition is printed as, or the line of its fault."""
    with tempfile.NamedTemporaryFile(prefix="asl-test-") as file:
        file.write(text.encode())
        file.flush()
        ran = run_program("print", file.name)
    if ran.returncode == 0 and ran.stderr == "" and ran.stdout.endswith("\n"):
        return ran.stdout[:-1]
    told = without_mending(ran.stderr)
    if ran.returncode == 2 and ran.stdout == "" and told.startswith("fault: definition: ") and told.endswith("\n"):
        return told[len("fault: definition: ") : -1]
    return f"status {ran.returncode}, {ran.stdout!r}, {ran.stderr!r}"


class DefinitionTest(ProgramTest):
    def assert_answers(self, wanted):
        """Each of these definitions is printed as the text beside it, or refused with that line."""
        with ThreadPoolExecutor(os.cpu_count()) as pool:
            answers = list(pool.map(answer, (text for text, _ in wanted)))
        others = [f"{text}\n  is answered {told}\n  and not {line}" for (text, line), told in zip(wanted, answers) if told != line]
        self.assertGreater(len(wanted), 0)
        self.assertFalse(others, "\n".join(others[:20]))

    def assert_parts(self, wanted):
        """The same for parts in a frame. Wanted is `ok` where the definition is printed as it stands, else a fault's line within the frame."""
        texts = [(frame.around(part), line, frame.place) for frame, part, line in wanted]
        self.assert_answers([(text, text if line == "ok" else line_at(line, place)) for text, line, place in texts])
