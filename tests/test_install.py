"""What users get who install the program or unpack an archive of it: the program, its man page, and completions that know its words."""
import json
import os
import re
import shutil
import subprocess
import tempfile
import unittest

from program import PROGRAM, TOP, run_program

ORDER = [f"examples/order/{it}" for it in ("definition.json", "mocks.json")] + ["order#unpaid", "examples/order/input.json"]


def words_of_program():
    """The commands of the program, each with its options and their possible values, as it tells them itself."""
    told = run_program("--help").stdout.partition("Commands:\n")[2].partition("\n\n")[0]
    found = {}
    for name in re.findall(r"^  (\w+) ", told, re.M):
        if name != "help":
            rows = re.findall(r"^ +(?:-\w, )?(--[\w-]+)(.*)", run_program("help", name).stdout.partition("Options:\n")[2], re.M)
            found[name] = {option: re.findall(r"\w+", "".join(re.findall(r"possible values: (.*)\]", rest))) for option, rest in rows}
    return found


class InstallTest(unittest.TestCase):
    maxDiff = None

    @classmethod
    def setUpClass(cls):
        cls.room = tempfile.mkdtemp(prefix="asl-install-")
        cls.addClassCleanup(shutil.rmtree, cls.room)
        cls.prefix = f"{cls.room}/prefix"
        cls.said = subprocess.run([f"{TOP}/tools/install", cls.prefix], stdout=subprocess.PIPE, encoding="utf-8", check=True).stdout
        cls.words = words_of_program()

    def page(self, path):
        with open(f"{self.prefix}/share/{path}", encoding="utf-8") as file:
            return file.read()

    def runs_example(self, program, folder):
        ran = subprocess.run([program, "run", *ORDER], cwd=folder, stdout=subprocess.PIPE, encoding="utf-8", check=False)
        with open(f"{TOP}/examples/order/unpaid.driven.txt", encoding="utf-8") as file:
            self.assertEqual((ran.returncode, ran.stdout), (1, file.read()))

    def test_installed(self):
        self.runs_example(f"{self.prefix}/bin/asl", TOP)
        self.assertIn(f"{self.prefix}/bin isn't on your PATH", self.said)

    def test_installed_over_itself(self):
        subprocess.run([f"{TOP}/tools/install", self.prefix], stdout=subprocess.DEVNULL, check=True)
        self.runs_example(f"{self.prefix}/bin/asl", TOP)

    def test_no_leave(self):
        with open(f"{self.room}/file", "w", encoding="utf-8"):
            pass
        ran = subprocess.run([f"{TOP}/tools/install", f"{self.room}/file"], stderr=subprocess.PIPE, encoding="utf-8", check=False)
        self.assertEqual(ran.returncode, 2)
        self.assertIn("name another folder", ran.stderr)

    def test_archive(self):
        folder = f"{self.room}/dist"
        for _ in range(2):
            subprocess.run([f"{TOP}/tools/release", folder], stdout=subprocess.DEVNULL, check=True)
            sums = sorted(os.listdir(folder))
            with open(f"{folder}/{sums[1]}", encoding="utf-8") as file:
                told = {file.read()} | (told if _ else set())
        self.assertEqual(len(told), 1, "the same program makes the same archive")
        name = run_program("--version").stdout.strip().replace(" ", "-") + "-x86_64-linux"
        self.assertEqual(sums, [f"{name}.tar.gz", f"{name}.tar.gz.sha256"])
        subprocess.run(["sha256sum", "--check", "--quiet", sums[1]], cwd=folder, check=True)
        subprocess.run(["tar", "-xzf", f"{folder}/{sums[0]}"], cwd=self.room, check=True)
        self.runs_example("./asl", f"{self.room}/{name}")
        self.assertEqual(sorted(os.listdir(f"{self.room}/{name}")), ["CHANGELOG.md", "LICENSE", "asl", "examples", "install", "share"])
        subprocess.run(["./install", f"{self.room}/other"], cwd=f"{self.room}/{name}", stdout=subprocess.DEVNULL, check=True)
        self.runs_example(f"{self.room}/other/bin/asl", TOP)
        self.assertEqual(subprocess.run(["diff", "-r", f"{self.room}/other", self.prefix], check=False).returncode, 0)

    def completed(self, *words):
        """What bash completes the last of these words to."""
        script = 'source "$1"; shift; COMP_WORDS=(asl "$@") COMP_CWORD=$#; _asl; printf "%s\\n" "${COMPREPLY[@]}"'
        path = f"{self.prefix}/share/bash-completion/completions/asl"
        ran = subprocess.run(["bash", "-c", script, "bash", path, *words], stdout=subprocess.PIPE, encoding="utf-8", check=True)
        return [it for it in ran.stdout.split("\n") if it]

    def test_bash(self):
        self.assertEqual(self.completed(""), [*self.words, "help", "--help", "--version"])
        self.assertEqual(self.completed("ex"), ["explore", "explain"])
        self.assertEqual(self.completed("help", ""), [*self.words, "help"])
        for name, options in self.words.items():
            self.assertEqual(self.completed(name, "-"), [*options], name)
            self.assertEqual(self.completed(name, "x"), [], name)
            for option, values in options.items():
                self.assertEqual(self.completed(name, "x", option, ""), values, (name, option))
                self.assertEqual(self.completed(name, option, "=", "") if values else values, values, (name, option))

    def test_fish(self):
        text = self.page("fish/vendor_completions.d/asl.fish")
        for name, options in self.words.items():
            self.assertRegex(text, rf"__fish_use_subcommand -a {name} -d ")
            rows = re.findall(rf"'__fish_seen_subcommand_from {name}' -l ([\w-]+)(.*)", text)
            self.assertEqual({f"--{option}": re.findall(r"\w+", "".join(re.findall(r" -a '(.*?)'", rest))) for option, rest in rows}, options)
        if shutil.which("fish"):
            script = f"source {self.prefix}/share/fish/vendor_completions.d/asl.fish; complete -C 'asl run --format '"
            ran = subprocess.run(["fish", "-c", script], stdout=subprocess.PIPE, encoding="utf-8", check=True)
            self.assertEqual({line.split("\t")[0] for line in ran.stdout.splitlines()}, {*self.words["run"]["--format"]})

    def test_zsh(self):
        text = self.page("zsh/site-functions/_asl")
        for name, options in self.words.items():
            self.assertIn(f"  '{name}:", text)
            rows = re.search(rf"^  {name}\)\n((?:    .*\n)+)", text, re.M)[1]
            found = re.findall(r"'(--[\w-]+)=?\[.*?(?<!\\)\](.*?)'", rows)
            self.assertEqual({option: re.findall(r"\w+", "".join(re.findall(r"\((.*)\)", rest))) for option, rest in found}, options)
        if shutil.which("zsh"):
            subprocess.run(["zsh", "-n", f"{self.prefix}/share/zsh/site-functions/_asl"], check=True)

    def test_manual(self):
        text = self.page("man/man1/asl.1").replace("\\-", "-").replace("\\&", "")
        for name, options in self.words.items():
            part = re.search(rf"^\.SS asl {name} .*\n((?:(?!\.S[SH]).*\n)+)", text, re.M)[1]
            for option, values in options.items():
                self.assertRegex(part, rf"(?m)^\.B (-\w, )?{option}\b")
                self.assertTrue(not values or f"[{', '.join(values)}]" in part, (name, option))
        examples = re.findall(r"^\.B asl (\w+)\b", text.partition(".SH EXAMPLES\n")[2].partition("\n.SH ")[0], re.M)
        # (lsp takes no operands: there is one way to start it)
        self.assertEqual(examples, [name for name in self.words for _ in range(1 if name == "lsp" else 2)])
        self.assertEqual(re.findall(r"^\.B (\d)$", text.partition(".SH EXIT STATUS")[2], re.M), ["0", "1", "2"])
        self.assertIn(f'"{run_program("--version").stdout.strip()}"', text.splitlines()[0])

    def test_version(self):
        version = subprocess.run([f"{TOP}/tools/version"], stdout=subprocess.PIPE, encoding="utf-8", check=True).stdout.strip()
        self.assertEqual(run_program("--version").stdout, f"asl {version}\n")
        log = json.loads(run_program("lint", f"{TOP}/examples/refused.json", "--format", "sarif").stdout)
        self.assertEqual(log["runs"][0]["tool"]["driver"]["version"], version)
        with open(f"{TOP}/CHANGELOG.md", encoding="utf-8") as file:
            self.assertEqual(re.search(r"^## (\S+)", file.read(), re.M)[1], version)

    def test_installed_program_is_the_built_one(self):
        with open(PROGRAM, "rb") as built, open(f"{self.prefix}/bin/asl", "rb") as installed:
            self.assertEqual(built.read(), installed.read())


if __name__ == "__main__":
    unittest.main()
