"""The examples that the helps of commands end with: two of each but the language server, which run on files of the repository."""
import subprocess
import sys
import unittest

from program import PROGRAM, TOP

sys.path.insert(0, f"{TOP}/tools")
from helps import commands  # pylint: disable=wrong-import-position


class HelpsTest(unittest.TestCase):
    def test_examples(self):
        """Each says something and is refused nothing, with the program under the name by which they call it."""
        for name, told in commands().items():
            if name == "lsp":  # a server says something where it is spoken to
                self.assertEqual(told.examples, ["asl lsp"])
                continue
            self.assertEqual(len(told.examples), 2, name)
            for line in told.examples:
                with self.subTest(line):
                    self.assertTrue(line.startswith(f"asl {name} "))
                    ran = subprocess.run(
                        ["bash", "-c", f'asl() {{ "$0" "$@"; }}\n{line}', PROGRAM],
                        cwd=TOP,
                        stdin=subprocess.DEVNULL,
                        capture_output=True,
                        encoding="utf-8",
                        timeout=60,
                        check=False,
                    )
                    self.assertIn(ran.returncode, (0, 1), ran.stderr)
                    self.assertNotEqual(ran.stdout, "")


if __name__ == "__main__":
    unittest.main()
