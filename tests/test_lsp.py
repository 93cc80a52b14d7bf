"""The language server: what it tells of a document is what `lint` finds in its text, at positions that are worked out here anew, however the bytes are cut."""
from __future__ import annotations

import glob
import json
import os
import random
import re
import shutil
import subprocess
import tempfile

from program import PROGRAM, TOP, ProgramTest, run_program

URI = "file:///definition.json"


def framed(message):
    """A message with its header; a text is taken as it is."""
    content = message if isinstance(message, bytes) else json.dumps(message, ensure_ascii=False).encode()
    return b"Content-Length: %d\r\n\r\n" % len(content) + content


def messages(stream):
    """The messages of a stream."""
    found = []
    while stream:
        head, _, rest = stream.partition(b"\r\n\r\n")
        length = int(re.fullmatch(rb"Content-Length: (\d+)", head)[1])
        found.append(json.loads(rest[:length]))
        assert rest[:length] == json.dumps(found[-1], ensure_ascii=False, separators=(",", ":")).encode(), rest[:length]
        stream = rest[length:]
    return found


def served(stream, pieces=None):
    """The status, what is sent for a stream, and standard error; where there are pieces, the stream is sent in these lengths."""
    with subprocess.Popen([PROGRAM, "lsp"], stdin=subprocess.PIPE, stdout=subprocess.PIPE, stderr=subprocess.PIPE) as server:
        if pieces is None:
            sent, told = server.communicate(stream, timeout=60)
        else:
            at = 0
            for length in pieces:
                server.stdin.write(stream[at : at + length])
                server.stdin.flush()
                at += length
            sent, told = server.communicate(stream[at:], timeout=60)
        return server.returncode, messages(sent), told.decode()


def request(number, method, params=None):
    return {"jsonrpc": "2.0", "id": number, "method": method, **({} if params is None else {"params": params})}


def notification(method, params=None):
    return {"jsonrpc": "2.0", "method": method, **({} if params is None else {"params": params})}


def initialize(*encodings):
    general = {"general": {"positionEncodings": list(encodings)}} if encodings else {}
    return request(1, "initialize", {"processId": None, "rootUri": None, "capabilities": general})


def opened(text, uri=URI, version=1):
    return notification("textDocument/didOpen", {"textDocument": {"uri": uri, "languageId": "json", "version": version, "text": text}})


def changed(text, uri=URI, version=2):
    return notification("textDocument/didChange", {"textDocument": {"uri": uri, "version": version}, "contentChanges": [{"text": text}]})


END = [request(9, "shutdown"), notification("exit")]


def position(text, offset, encoding):
    """The line and the character of a byte of a text, whose lines end with LF, CR LF or CR."""
    before = text.encode()[:offset].decode(errors="ignore")
    # (a place between CR and LF is at the end of the line)
    lines = re.split(r"\r\n|\n|\r(?!\Z)|\r\Z" if not text.encode()[offset : offset + 1] == b"\n" else r"\r\n|\n|\r(?!\Z)", before)
    last = lines[-1]
    return {"line": len(lines) - 1, "character": len(last.encode("utf-16-le")) // 2 if encoding == "utf-16" else len(last.encode())}


def diagnostics(text, encoding="utf-16"):
    """What is to be told of a document, by `lint --format json`."""
    with tempfile.TemporaryDirectory(prefix="asl-test-") as room:
        path = os.path.join(room, "definition.json")
        with open(path, "w", encoding="utf-8", newline="") as out:
            out.write(text)
        lines = [json.loads(line) for line in run_program("lint", path, "--format", "json").stdout.splitlines()]
    return [
        {
            "range": {"start": position(text, it["begin"], encoding), "end": position(text, it["end"], encoding)},
            "severity": {"error": 1, "warning": 2}[it["severity"]],
            "code": it["name"],
            "source": "asl",
            "message": it["message"],
        }
        for it in lines
    ]


def value_and_spans(text):
    """The value of a JSON text, and by place (members and items by their numbers) the stretch of each key and each value, in characters."""
    keys, values = {}, {}
    blank = re.compile(r"[ \t\r\n]*")
    plain = json.JSONDecoder(object_pairs_hook=list)

    def read(at, place):
        at = blank.match(text, at).end()
        begin, kind, parts = at, text[at], []
        if kind not in "{[":
            value, at = plain.raw_decode(text, at)
            values[place] = (begin, at)
            return value, at
        at = blank.match(text, at + 1).end()
        while text[at] not in "}]":
            inner = (*place, len(parts))
            if kind == "{":
                key, end = plain.raw_decode(text, at)
                keys[inner] = (at, end)
                at = blank.match(text, end).end() + 1
            value, at = read(at, inner)
            parts.append((key, value) if kind == "{" else value)
            at = blank.match(text, at).end()
            if text[at] == ",":
                at = blank.match(text, at + 1).end()
        values[place] = (begin, at + 1)
        return (dict(parts), [key for key, _ in parts]) if kind == "{" else parts, at + 1

    value, _ = read(0, ())
    return value, keys, values


def names(text):
    """The names of states: the place of the machine, the name, whether it is a key, and its stretch."""
    whole, keys, values = value_and_spans(text)
    found = []

    def members(value, place):
        if isinstance(value, tuple):
            for number, key in enumerate(value[1]):
                yield key, value[0][key], (*place, number)

    def items(value, place):
        if isinstance(value, list):
            for number, it in enumerate(value):
                yield it, (*place, number)

    def refer(machine, value, place):
        if isinstance(value, str):
            found.append((machine, value, False, values[place]))

    def of_machine(value, machine):
        for key, it, place in members(value, machine):
            if key == "StartAt":
                refer(machine, it, place)
            if key == "States":
                for name, state, inner in members(it, place):
                    found.append((machine, name, True, keys[inner]))
                    of_state(machine, state, inner)

    def of_state(machine, value, at):
        for key, it, place in members(value, at):
            if key in ("Next", "Default"):
                refer(machine, it, place)
            if key in ("Choices", "Catch"):
                for rule, inner in items(it, place):
                    for name, value_of, deep in members(rule, inner):
                        if name == "Next":
                            refer(machine, value_of, deep)
            if key == "Branches":
                for branch, inner in items(it, place):
                    of_machine(branch, inner)
            if key in ("Iterator", "ItemProcessor"):
                of_machine(it, place)

    of_machine(whole, ())
    return found


def without_links(published):
    return [{key: value for key, value in it.items() if key != "codeDescription"} for it in published["params"]["diagnostics"]]


class Lsp(ProgramTest):
    def told(self, *sent, first=initialize(), pieces=None):
        """What is sent for these messages behind `initialize`, up to the answer to `shutdown`."""
        stream = b"".join(map(framed, [first, notification("initialized", {}), *sent, *END]))
        status, found, err = served(stream, pieces)
        self.assertEqual((status, err), (0, ""))
        self.assertEqual(found[-1], {"jsonrpc": "2.0", "id": 9, "result": None})
        self.assertEqual(found[0]["id"], 1)
        return found[0]["result"], found[1:-1]

    def texts(self):
        """Texts of definitions, right and wrong."""
        names = sorted(glob.glob(f"{TOP}/examples/*/definition.json"))[:6]
        texts = []
        for name in names:
            with open(name, encoding="utf-8") as file:
                texts.append(file.read())
        wrong = [re.sub(r'"Next"', '"Nxt"', text, count=1) for text in texts]
        return [*texts, *wrong, "", "{", '{"StartAt":"A"}', '{"StartAt":"é😀","States":{"é😀x":{"Type":"Pass","Nd":1,"é":"😀","End":true}}}', '{\r\n"StartAt": "A",\r"States": {\n"B": {"Type": "Succeed"}}}']

    def test_a_document_has_the_findings_of_lint(self):
        for text in self.texts():
            for encoding in ("utf-16", "utf-8"):
                result, found = self.told(opened(text), first=initialize(encoding, "utf-16"))
                self.assertEqual(result["capabilities"]["positionEncoding"], encoding)
                (one,) = found
                self.assertEqual((one["method"], one["params"]["uri"]), ("textDocument/publishDiagnostics", URI))
                self.assertEqual(without_links(one), diagnostics(text, encoding), text)

    def test_changes_and_saves_are_judged_and_a_closed_document_is_cleared(self):
        good, bad = '{"StartAt":"A","States":{"A":{"Type":"Succeed"}}}', '{"StartAt":"B","States":{"A":{"Type":"Succeed"}}}'
        other = "file:///other.json"
        document = {"textDocument": {"uri": URI}}
        sent = [
            opened(good),
            opened(bad, other, 7),
            changed(bad),
            notification("textDocument/didSave", document),
            changed(good, version=3),
            notification("textDocument/didClose", document),
            notification("textDocument/didSave", document),
            changed(bad, version=4),
        ]
        _, found = self.told(*sent)
        self.assertEqual([(it["params"]["uri"], without_links(it)) for it in found], [(uri, diagnostics(text) if text else []) for uri, text in [(URI, good), (other, bad), (URI, bad), (URI, bad), (URI, good), (URI, None)]])

    def test_it_makes_no_difference_how_the_bytes_are_cut(self):
        texts = self.texts()[:8]
        sent = [opened(text, f"file:///{number}.json") for number, text in enumerate(texts)]
        whole = self.told(*sent)
        random.seed(5)
        for most in (1, 7, 300):
            pieces = [random.randint(1, most) for _ in range(400)]
            self.assertEqual(self.told(*sent, pieces=pieces), whole)

    def test_each_request_is_answered_and_bad_messages_end_nothing(self):
        stream = b"".join(
            [
                framed(request(0, "textDocument/hover", {})),
                framed(initialize()),
                framed(initialize()),
                framed(request("a", "textDocument/hover", {})),
                framed(b"{"),
                framed(b"[]"),
                b"Content-Size: 3\r\n\r\n",
                framed(notification("$/setTrace", {"value": "off"})),
                framed({"jsonrpc": "2.0", "id": 4, "result": None}),
                framed(notification("textDocument/didOpen", {"textDocument": {"uri": 5}})),
                framed(request(5, "shutdown")),
                framed(request(6, "textDocument/hover", {})),
                framed(notification("exit")),
            ]
        )
        status, found, err = served(stream)
        self.assertEqual((status, err), (0, ""))
        codes = [(it["id"], it["error"]["code"] if "error" in it else None) for it in found]
        self.assertEqual(codes, [(0, -32002), (1, None), (1, -32600), ("a", -32601), (None, -32700), (None, -32600), (None, -32700), (5, None), (6, -32600)])

    def test_the_end_of_input_and_a_closed_pipe_end_it(self):
        for stream in (b"", framed(initialize()), framed(initialize())[:30], b"Content-Length: 5"):
            status, _, err = served(stream)
            self.assertEqual((status, err), (0, ""), stream)
        with subprocess.Popen([PROGRAM, "lsp"], stdin=subprocess.PIPE, stdout=subprocess.PIPE, stderr=subprocess.PIPE) as server:
            server.stdout.close()
            server.stdin.write(framed(initialize()))
            server.stdin.close()
            self.assertEqual(server.wait(60), 0)
            self.assertIn(server.stderr.read(), (b"", b"fault: file standard output: a write failed\n"))

    def test_a_document_of_the_largest_size_is_judged(self):
        text = '{"StartAt":"A","Comment":"' + "\\u0041" * 170_000 + '","States":{"B":{"Type":"Succeed"}}}'
        self.assertGreater(len(text), 1_000_000)
        _, found = self.told(opened(text))
        (one,) = found
        self.assertEqual(without_links(one), diagnostics(text))
        self.assertEqual([it["code"] for it in one["params"]["diagnostics"]][:1], ["F10"])

    # ---- questions about a document

    def asked(self, text, *questions, encoding="utf-16"):
        """What is answered to these methods with these parameters, about a document with this text."""
        document = {"textDocument": {"uri": URI}}
        sent = [request(number, f"textDocument/{method}", {**document, **more}) for number, (method, more) in enumerate(questions)]
        _, found = self.told(opened(text), *sent, first=initialize(encoding, "utf-16"))
        answers = found[1:]
        self.assertEqual([it["id"] for it in answers], list(range(len(questions))))
        return [it["result"] if "result" in it else it["error"] for it in answers]

    def named_texts(self):
        texts = [text for text in self.texts() if text.startswith("{") and text.endswith(("}", "}\n")) and text.count("{") == text.count("}")]
        inner = '{"StartAt":"A","States":{"A":{"Type":"Task","Resource":"r","Catch":[{"ErrorEquals":["States.ALL"],"Next":"é😀"}],"Next":"é😀"},"é😀":{"Type":"Succeed"}}}'
        texts.append('{"StartAt":"A",\r\n"States":{"A":{"Type":"Parallel","Branches":[%s,\r%s],"Next":"B"},\n"B":{"Type":"Map","Iterator":%s,"Next":"C"},"C":{"Type":"Choice","Choices":[{"Variable":"$.x","IsNull":true,"Next":"A"},5],"Default":"D","Next":7}}}' % (inner, inner, inner))
        return texts

    def test_a_name_leads_to_its_state_and_back(self):
        for text in self.named_texts():
            for encoding in ("utf-16", "utf-8"):
                all_names = names(text)

                def where(span):
                    begin, end = (len(text[:at].encode()) for at in span)
                    return {"start": position(text, begin, encoding), "end": position(text, end, encoding)}

                questions, wanted = [], []
                for number, (machine, name, is_key, span) in enumerate(all_names):
                    same = [it for it in all_names if it[:2] == (machine, name)]
                    spot = where(span)
                    at = {"position": [spot["start"], spot["end"], {**spot["start"], "character": spot["start"]["character"] + 1}][number % 3]}
                    located = lambda those: [{"uri": URI, "range": where(it[3])} for it in those]
                    questions += [
                        ("definition", at),
                        ("references", {**at, "context": {"includeDeclaration": True}}),
                        ("references", {**at, "context": {"includeDeclaration": False}}),
                        ("prepareRename", at),
                        ("rename", {**at, "newName": "Néw \"1\""}),
                    ]
                    wanted += [
                        located([it for it in same if it[2]]),
                        located(same),
                        located([it for it in same if not it[2]]),
                        {"range": spot, "placeholder": name},
                        {"changes": {URI: [{"range": where(it[3]), "newText": '"Néw \\"1\\""'} for it in same]}},
                    ]
                self.assertEqual(self.asked(text, *questions, encoding=encoding), wanted, text)

    def test_edits_give_the_state_its_new_name_and_no_other(self):
        for text in self.named_texts():
            offsets = {tuple(position(text, len(text[:at].encode()), "utf-16").values()): at for at in range(len(text), -1, -1)}
            before = names(text)
            for machine, name, _, span in before[:3]:
                (answer,) = self.asked(text, ("rename", {"position": position(text, len(text[: span[0]].encode()), "utf-16"), "newName": "Another"}))
                renamed = text
                for edit in reversed(answer["changes"][URI]):
                    begin, end = (offsets[tuple(edit["range"][side].values())] for side in ("start", "end"))
                    renamed = renamed[:begin] + edit["newText"] + renamed[end:]
                wanted = [(it[0], "Another" if it[:2] == (machine, name) else it[1], it[2]) for it in before]
                self.assertEqual([it[:3] for it in names(renamed)], wanted)

    def test_what_cannot_be_renamed_is_refused(self):
        text = '{"StartAt":"A","States":{"A":{"Type":"Pass","Next":"B"},"B":{"Type":"Succeed"}}}'
        at, nowhere = {"position": {"line": 0, "character": 12}}, {"position": {"line": 3, "character": 0}}
        questions = [("rename", {**at, "newName": name}) for name in ("", "B", "A", "é" * 81, "é" * 80)]
        answers = self.asked(text, *questions, ("rename", {**nowhere, "newName": "C"}), ("rename", at), ("prepareRename", nowhere), ("definition", nowhere))
        self.assertEqual([it and it.get("code") for it in answers], [-32803, -32803, -32803, -32803, None, -32803, -32602, None, None])

    def test_a_document_is_laid_out(self):
        options = {"options": {"tabSize": 8, "insertSpaces": False}}
        for text in self.named_texts():
            for encoding in ("utf-16", "utf-8"):
                layout = json.dumps(json.loads(text), indent=2, ensure_ascii=False) + "\n"
                edit = {"range": {"start": {"line": 0, "character": 0}, "end": position(text, len(text.encode()), encoding)}, "newText": layout}
                self.assertEqual(self.asked(text, ("formatting", options), encoding=encoding), [[edit] if layout != text else []])
                self.assertEqual(self.asked(layout, ("formatting", options), encoding=encoding), [[]])
        for text in ("", "{", '{"a":1,"a":2}'):
            self.assertEqual(self.asked(text, ("formatting", options), ("definition", {"position": {"line": 0, "character": 0}})), [None, None])

    # ---- a real client

    def test_neovim_shows_the_findings(self):
        if not shutil.which("nvim"):
            self.skipTest("neovim isn't installed")
        script = """
local config = { name = "asl", cmd = { "%s", "lsp" }, root_dir = vim.fn.getcwd() }
if vim.lsp.start then vim.lsp.start(config) else vim.lsp.buf_attach_client(0, vim.lsp.start_client(config)) end
vim.wait(10000, function() return #vim.diagnostic.get(0) > 0 end)
for _, it in ipairs(vim.diagnostic.get(0)) do
  io.stdout:write(it.lnum .. " " .. it.col .. " " .. it.severity .. " " .. it.code .. "\\n")
end
""" % PROGRAM
        text = '{"StartAt": "B",\n "States": {"é": {"Type": "Succeed"}}}\n'
        with tempfile.TemporaryDirectory(prefix="asl-test-") as room:
            for name, content in (("definition.json", text), ("client.lua", script)):
                with open(os.path.join(room, name), "w", encoding="utf-8") as out:
                    out.write(content)
            words = ["nvim", "--headless", "--clean", "-n", "definition.json", "-c", "luafile client.lua", "-c", "qa!"]
            ran = subprocess.run(words, cwd=room, stdin=subprocess.DEVNULL, capture_output=True, encoding="utf-8", timeout=60)
        wanted = [f'{it["range"]["start"]["line"]} {len(text.splitlines()[it["range"]["start"]["line"]][: it["range"]["start"]["character"]].encode())} {it["severity"]} {it["code"]}' for it in diagnostics(text)]
        self.assertEqual(sorted(ran.stdout.split("\n")[:-1]), sorted(wanted), ran.stderr)
