"""Files and streams that give or take little, or fail: each read and each write is refused in turn."""
import os
import subprocess
import tempfile
import unittest

from program import PROGRAM, TOP

EXAMPLE = f"{TOP}/examples/order"
DEFINITION, MOCKS, INPUT = (f"{EXAMPLE}/{name}.json" for name in ["definition", "mocks", "input"])
SETUP = [DEFINITION, MOCKS, "order#shipped", INPUT]

# A command line of each kind, whose answer is the same each time.
COMMANDS = [
    ["check", DEFINITION],
    ["print", DEFINITION],
    ["upgrade", DEFINITION],
    *(["lint", f"{TOP}/examples/refused.json", MOCKS, "--format", kind] for kind in ["text", "json", "sarif", "github", "gitlab"]),
    *(["graph", DEFINITION, "--format", kind] for kind in ["mermaid", "markdown", "dot"]),
    ["mocks", DEFINITION],
    ["run", *SETUP],
    ["run", *SETUP, "--steps", "STEPS"],
    *(["run", *SETUP, "--format", kind] for kind in ["json", "aws", "steps", "tree"]),
    ["debug", *SETUP, "SCRIPT"],
    *(["test", DEFINITION, MOCKS, f"{EXAMPLE}/expectations.json", "--format", kind] for kind in ["text", "junit", "json"]),
    ["explore", *SETUP],
    ["test", DEFINITION, MOCKS, f"{EXAMPLE}/expectations.json", "--workers", "2"],
    ["explore", *SETUP, "--calls"],
    ["explore", *SETUP, "--witness", "2"],
    ["explore", *SETUP, "--witness", "2", "--format", "test"],
    ["test", DEFINITION, MOCKS, f"{EXAMPLE}/expectations.json", "--orders"],
]

STEPS = "/ 2024-01-01T00:00:00Z\n/ 2024-01-01T00:00:01Z\n"
SCRIPT = "step / 2024-01-01T00:00:00Z\nshow /\nback 1\n"


class Streams(unittest.TestCase):
    maxDiff = None

    @classmethod
    def setUpClass(cls):
        room = tempfile.TemporaryDirectory(prefix="asl-test-")
        cls.addClassCleanup(room.cleanup)
        cls.library = f"{room.name}/streams.so"
        subprocess.run([os.environ.get("CC", "cc"), "-shared", "-fPIC", "-o", cls.library, f"{TOP}/tests/streams.c"], check=True)
        cls.files = {}
        for name, text in [("SCRIPT", SCRIPT), ("STEPS", STEPS)]:
            cls.files[name] = f"{room.name}/{name}"
            with open(cls.files[name], "w", encoding="utf-8") as file:
                file.write(text)

    def commands(self):
        return [[self.files.get(word, word) for word in words] for words in COMMANDS]

    def run_by(self, words, **more):
        """What the program does, with the library and these variables of the environment: its status, what it prints, and what it tells."""
        environment = {**os.environ, "LD_PRELOAD": self.library, **{name: str(value) for name, value in more.items()}}
        ran = subprocess.run([PROGRAM, *words], env=environment, stdin=subprocess.DEVNULL, capture_output=True, timeout=60)
        return ran.returncode, ran.stdout, ran.stderr

    def test_reads_may_be_short_and_interrupted(self):
        for words in self.commands():
            wanted = subprocess.run([PROGRAM, *words], stdin=subprocess.DEVNULL, capture_output=True, timeout=60)
            self.assertEqual(self.run_by(words), (wanted.returncode, wanted.stdout, wanted.stderr), words)

    def test_each_read_is_refused_in_turn(self):
        for words in self.commands():
            wanted = self.run_by(words, READ_FAILS=0)
            self.assertNotEqual(wanted[0], 2, words)
            told, number = set(), 1
            while (ran := self.run_by(words, READ_FAILS=number)) != wanted:
                status, out, err = ran
                self.assertEqual((status, out), (2, b""), words)
                self.assertRegex(err.decode(), r"\Afault: file [^\n]+: a read failed\n\Z")
                told.add(err.decode().split(" ")[2].rstrip(":"))
                number += 1
            # Each file of the command line gave its own fault.
            self.assertEqual(told, {word for word in words if word.startswith("/")}, words)

    def test_each_write_is_refused_in_turn(self):
        for words in self.commands():
            status, out, _ = self.run_by(words, WRITE_FAILS=0)
            self.assertNotEqual(status, 2, words)
            number, printed = 1, b""
            while (ran := self.run_by(words, WRITE_FAILS=number))[0] == 2:
                # What was printed before it stays, and is a beginning of the whole.
                self.assertTrue(out.startswith(ran[1]) and len(ran[1]) < len(out), words)
                self.assertTrue(ran[2].endswith(b"fault: file standard output: a write failed\n"), words)
                number, printed = number + 1, ran[1]
            self.assertGreater(number, 1, words)
            self.assertEqual(ran[:2], (status, out), words)

    def test_writes_may_take_one_byte_each(self):
        for words in self.commands():
            status, out, err = self.run_by(words, WRITE_FAILS=0)
            self.assertEqual(self.run_by(words, WRITE_FAILS=0, WRITE_SHORT=1), (status, out, err), words)

    def test_a_write_of_one_byte_is_refused_in_turn(self):
        words = ["check", DEFINITION], ["graph", f"{TOP}/examples/hello/definition.json"]
        for command in words:
            _, out, _ = self.run_by(command, WRITE_FAILS=0)
            for number in range(1, len(out) + 1):
                told = self.run_by(command, WRITE_FAILS=number, WRITE_SHORT=1)
                self.assertEqual(told[:2], (2, out[: number - 1]), command)

    def test_a_fault_that_cannot_be_told_keeps_its_status(self):
        for number in (1, 2, 3):
            status, out, err = self.run_by(["check", f"{TOP}/nowhere"], WRITE_FAILS=number)
            self.assertEqual((status, out), (2, b""))
            self.assertTrue(b"fault: file ".startswith(err[:12]))

    def test_a_file_without_an_end_is_too_long(self):
        self.assertEqual(self.run_by(["check", "/dev/zero"], READ_FAILS=0), (2, b"", b"fault: file /dev/zero: it has more than 16777216 bytes\n"))

    def test_a_file_that_grows_while_it_is_read_is_read_to_its_end(self):
        with open(DEFINITION, "rb") as file:
            text = file.read()
        program = subprocess.Popen([PROGRAM, "check", "-"], stdin=subprocess.PIPE, stdout=subprocess.PIPE, stderr=subprocess.PIPE)
        for at in range(0, len(text), 100):
            program.stdin.write(text[at : at + 100])
            program.stdin.flush()
        out, err = program.communicate(timeout=60)
        self.assertEqual((program.returncode, out, err), (0, b"ok\n", b""))


if __name__ == "__main__":
    unittest.main()
