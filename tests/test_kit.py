"""What the tools call of the kit: a stand-in for rt that has only words that every kit has answers tools/build, .ci/run and ./asl."""
import os
import re
import shutil
import subprocess
import sys
import tempfile
import textwrap
import unittest

from program import TOP

sys.path.insert(0, f"{TOP}/tools")
from crates import Crates  # pylint: disable=wrong-import-position

# So many ways lead down from the program at most. A kit's rt takes each of them where tools/rt doesn't help (docs/DECISIONS.md).
MOST_WAYS = 1_100_000

# It writes down each call, and answers those that `rt help` of each kit has. Its `rt ci` leaves what `rt ci` leaves.
STAND_IN = """\
#!/bin/bash
here=$(dirname "$(dirname "$(readlink -f "$0")")")
echo "$*" >> "$here/calls"
made() { mkdir -p "$(dirname "$1")"; printf '#!/bin/sh\\necho the program\\n' > "$1"; chmod +x "$1"; }
case "$# $*" in
  '1 doc') echo "$here/START-HERE.md" ;;
  '1 ci')
    [ -d .git ] && [ -f HANDLES ] || exit 2
    for name in $(sed 's/#.*//; s/[: ].*//' crates.txt); do
      [ -d "crates/$name/src" ] && ! [ -d "crates/$name/must-fail" ] || exit 1
      mkdir -p "crates/$name/out/rlib/$name.rlib"
      echo "rt: $name proved"
    done
    made crates/asl/out/asl
    for name in asl_refusal_tests asl_threads_tests; do
      if [ -d crates/$name ]; then made crates/$name/out/${name}_tests; fi
    done
    echo '1 passed, 0 failed'
    ;;
  *' must-fail '*) echo "rt: refused" ;;
  *' try --data '*) printf 'interpreter: \\nrun=ended status=0 proved=no\\n' >&2; echo "tried" ;;
  *) echo 'usage: rt ci' >&2; exit 2 ;;
esac
"""

# A kit's rt whose crates are asked again and again: what it counts is how often.
ASKING = """\
import sys
import types

asked = []


class Crate:
    def __init__(self, folder, *deps):
        self.folder, self.deps = folder, deps

    def stamp(self):
        asked.append(self.folder)
        return self.folder + "".join(it.stamp() for it in self.deps)

    def below(self):
        return [it for dep in self.deps for it in [*dep.below(), dep]]


rtlib = types.SimpleNamespace(Crate=Crate)


def need(crate):
    return 1_000_000_000 * (int(crate.folder) + 1)


def in_lanes(tasks):
    given = {}
    for key, (waits, *_, call) in tasks.items():
        assert all(it in given for it in waits)
        given[key] = call(given, 1)
    return given


def checks():
    # a crate without tests; its edits ask for what came of both
    ran, both = [], [("0", "proof"), ("0", "tests")]
    tasks = {
        both[0]: ([], 9, 1, lambda given, jobs: ran.append("proof") or True),
        both[1]: ([], 0, 1, lambda given, jobs: ran.append("tests") or True),
        ("0", "edits"): (both, 0, 1, lambda given, jobs: ran.append("edits") or all(given[it] for it in both)),
    }
    given = in_lanes(tasks)
    # tasks of another kit's parts are left as they are
    other = in_lanes({"0": ([], lambda given, jobs: True)})
    return [str(len(ran)), str(sum(given.values()) + sum(other.values()))]


def main(words):
    top = low = Crate("0")
    for it in range(1, 8):
        low, top = top, Crate(str(it), low, top)
    print(len(top.stamp()), len(top.below()), need(low), need(top), len(asked), *checks(), *words)
    return 3


if __name__ == "__main__":
"""
# The ways in which it ends.
ENDS = [
    "    sys.exit(main(sys.argv[1:]))\n",
    """\
    try:
        status = main(sys.argv[1:])
        sys.stdout.flush()
    except BrokenPipeError:
        status = 141
    sys.exit(status)
""",
]


class KitTest(unittest.TestCase):
    maxDiff = None

    def setUp(self):
        self.room = tempfile.mkdtemp(prefix="asl-kit-")
        self.addCleanup(shutil.rmtree, self.room)
        self.tree = f"{self.room}/tree"
        self.set_kit(STAND_IN)

    def set_kit(self, text):
        """Puts a stand-in for rt on the PATH, in a folder as a kit's."""
        os.makedirs(f"{self.room}/kit/bin", exist_ok=True)
        with open(f"{self.room}/kit/bin/rt", "w", encoding="utf-8") as file:
            file.write(text)
        os.chmod(f"{self.room}/kit/bin/rt", 0o755)

    def copy_tree(self):
        """A copy of the tree in which nothing is built, with the texts of one crate alone, and in which all other checks pass at once."""
        os.mkdir(self.tree)
        for name in ("tools", "examples", ".ci", "crates/asl/data", "crates/asl_text"):
            shutil.copytree(f"{TOP}/{name}", f"{self.tree}/{name}", ignore=shutil.ignore_patterns("out", "__pycache__"))
        for name in ("asl", "crates.txt", "HANDLES"):
            shutil.copy(f"{TOP}/{name}", self.tree)
        for name in Crates().named:
            os.makedirs(f"{self.tree}/crates/{name}/src", exist_ok=True)
        for name in ("tests", "figures", "language"):
            with open(f"{self.tree}/tools/{name}", "w", encoding="utf-8") as file:
                file.write("#!/bin/sh\necho tested\n")

    def run_tool(self, *words, folder=None, path=None):
        return subprocess.run(
            words,
            cwd=folder or self.tree,
            env={**os.environ, "PATH": f"{path or self.room + '/kit/bin'}:{os.environ['PATH']}", "RT_JOBS": "2"},
            stdin=subprocess.DEVNULL,
            stdout=subprocess.PIPE,
            stderr=subprocess.STDOUT,
            encoding="utf-8",
            timeout=300,
            check=False,
        )

    def calls(self):
        with open(f"{self.room}/kit/calls", encoding="utf-8") as file:
            return {re.sub(r"^(must-fail|try) .*", r"\1", line) for line in file.read().splitlines()}

    def test_build(self):
        self.copy_tree()
        ran = self.run_tool("tools/build")
        self.assertEqual(ran.returncode, 0, ran.stdout)
        self.assertIn("the program is proved and built", ran.stdout)
        self.assertEqual(self.calls(), {"doc", "ci"})
        ran = self.run_tool("./asl", "check", "examples/refused.json")
        self.assertEqual(ran.stdout, "the program\n")

    def test_gate(self):
        self.copy_tree()
        ran = self.run_tool("bash", ".ci/run")
        self.assertEqual(ran.returncode, 0, ran.stdout)
        self.assertIn("tested", ran.stdout.splitlines())
        # its prover answers nothing, so the edits are tried by the kit's own word
        self.assertEqual(self.calls(), {"doc", "ci", "must-fail"})
        self.assertTrue(os.path.isfile(f"{self.tree}/crates/asl_refusal_tests/out/asl_refusal_tests_tests"))

    def test_first_answer(self):
        self.copy_tree()
        ran = self.run_tool("./asl", "check", "examples/refused.json")
        self.assertEqual((ran.returncode, ran.stdout.splitlines()[-1]), (0, "tried"))
        self.assertEqual(self.calls(), {"doc", "try"})

    def test_a_kit_that_fails(self):
        self.copy_tree()
        self.set_kit("#!/bin/sh\necho 'rt: asl_json NOT PROVED'\nexit 1\n")
        ran = self.run_tool("tools/build")
        self.assertEqual(ran.returncode, 1)
        self.assertIn("not built", ran.stdout)
        self.assertFalse(os.path.exists(f"{self.tree}/crates/asl/out/asl"))

    def test_crates_are_asked_once(self):
        script = f"{self.room}/kit/asking"
        self.set_kit(textwrap.dedent(f"""\
            #!/bin/sh
            [ "$*" = doc ] && echo {self.room}/kit/START-HERE.md && exit
            exit 9
            """))
        self.assertEqual(self.run_tool(f"{TOP}/tools/rt", "ci", folder=self.room).returncode, 9)
        os.rename(f"{self.room}/kit/bin", f"{self.room}/kit/path")
        os.mkdir(f"{self.room}/kit/bin")
        for end in ENDS:
            with open(script, "w", encoding="utf-8") as file:
                file.write(ASKING + end)
            shutil.copy(script, f"{self.room}/kit/bin/rt")
            plain = self.run_tool(sys.executable, script, "ci", folder=self.room)
            quick = self.run_tool(f"{TOP}/tools/rt", "ci", folder=self.room, path=f"{self.room}/kit/path")
            said = plain.stdout.split()
            self.assertEqual((plain.returncode, quick.returncode), (3, 3))
            # the same sum and names, by one question a crate in place of one a way; no check is reckoned with more memory than any takes
            self.assertEqual(said[2:4], ["7000000000", "8000000000"])
            # and tests of a crate that has none aren't run, but passed
            self.assertEqual(said[5:], ["3", "4", "ci"])
            self.assertEqual(quick.stdout.split(), [*said[:2], "4500000000", "4500000000", "8", "2", "4", "ci"])
            self.assertGreater(int(said[4]), 30)

    def test_crates_name_what_their_texts_name(self):
        crates = Crates()
        for name in crates.named:
            folders = [f"{TOP}/crates/{name}/{part}" for part in ("src", "specs", "proofs")]
            found = subprocess.run(["grep", "-rhoE", r"\basl_\w+", *folders], stdout=subprocess.PIPE, stderr=subprocess.DEVNULL, encoding="utf-8", check=False)
            words = {*found.stdout.split()}
            self.assertEqual([it for it in crates.own(name) if it not in words], [], name)

    def test_ways_down(self):
        self.assertLessEqual(Crates().ways("asl"), MOST_WAYS)


if __name__ == "__main__":
    unittest.main()
