"""Talks to editors/server as an editor does, and tests what it tells, by itself and in Neovim, where that is there."""
import json
import os
import pathlib
import re
import shutil
import subprocess
import tempfile

import program

SERVER = program.TOP / "editors/server"
BUFFER = program.TOP / "examples/two_place_buffer/spec.lotos"
URI = "file:///unsaved.lotos"


class Editor:
    """An editor that has one text, with a server of its own."""

    def __init__(self):
        self.run = subprocess.Popen([SERVER], stdin=subprocess.PIPE, stdout=subprocess.PIPE, cwd="/")
        self.number, self.version, self.text = 0, 0, ""
        self.told = []
        self.ask("initialize", {})

    def send(self, **message):
        """Writes a message."""
        body = json.dumps({"jsonrpc": "2.0", **message}).encode()
        self.run.stdin.write(b"Content-Length: %d\r\n\r\n" % len(body) + body)
        self.run.stdin.flush()

    def receive(self):
        """The next message."""
        length = int(self.run.stdout.readline().split(b":")[1])
        self.run.stdout.readline()
        return json.loads(self.run.stdout.read(length))

    def ask(self, method, params):
        """The answer to a question."""
        self.number += 1
        self.send(id=self.number, method=method, params=params)
        while (message := self.receive()).get("id") != self.number:
            self.told.append(message)
        return message["result"]

    def put(self, text):
        """Opens the text, or changes it."""
        self.text, self.version = text, self.version + 1
        document = {"uri": URI, "version": self.version}
        if self.version == 1:
            self.send(method="textDocument/didOpen", params={"textDocument": {**document, "languageId": "lotos", "text": text}})
        else:
            self.send(method="textDocument/didChange", params={"textDocument": document, "contentChanges": [{"text": text}]})

    def refusals(self, count):
        """The refusals of the text as it is: where each begins and ends, its number, and the first line of what is said; once there are so many."""
        while True:
            message = self.told.pop(0) if self.told else self.receive()
            params = message.get("params", {})
            if message.get("method") == "textDocument/publishDiagnostics" and params.get("version") == self.version and len(params["diagnostics"]) == count:
                return [(spot(one["range"]), one["code"], one["message"].split("\n")[0]) for one in params["diagnostics"]]

    def at(self, method, place):
        """What is answered of a place, as `LINE:COLUMN` from 1."""
        line, column = map(int, place.split(":"))
        return self.ask(f"textDocument/{method}", {"textDocument": {"uri": URI}, "position": {"line": line - 1, "character": column - 1}})

    def hover(self, place):
        """What is told of a place."""
        found = self.at("hover", place)
        return found["contents"]["value"] if found else None

    def definition(self, place):
        """Where what stands at a place is declared."""
        return [spot(one["range"]) for one in self.at("definition", place)]

    def outline(self):
        """The outline: names with what they are, those inside in brackets."""
        return outlined(self.ask("textDocument/documentSymbol", {"textDocument": {"uri": URI}}))

    def end(self):
        """Ends the server; gives its status."""
        self.ask("shutdown", None)
        self.send(method="exit")
        self.run.stdin.close()
        return self.run.wait(60)


def spot(place):
    """A part of a line, counted from 1, its end behind it."""
    begin, end = place["start"], place["end"]
    return f"{begin['line'] + 1}:{begin['character'] + 1}-{end['character'] + 1}"


def outlined(entries):
    """Entries of an outline in a line."""
    return ", ".join(one["name"] + (f" ({outlined(one['children'])})" if one["children"] else "") for one in entries)


TEXT = """(* α: two bytes, one letter *)
specification S [put, get] : noexit
library Boolean, NaturalNumber endlib
type Box is NaturalNumber
  sorts Box
  opns none : -> Box
       box : Nat -> Box
       _eq_ : Box, Box -> Bool
       open : Box -> Nat
  eqns forall n : Nat
    ofsort Nat
      open(none) = 0;
      open(box(n)) = n;
endtype
behaviour
  (* β *) Holding [put, get] (none)
where
  process Holding [put, get] (held : Box) : noexit :=
       put ?n : Nat; Holding [put, get] (box(n))
    [] get !open(held); Holding [put, get] (held)
  endproc
endspec
"""
# What is told of a place, and where that is declared.
HOVERS = [
    ("16:11", "process Holding [put, get] (held : Box) : noexit", ["18:11-18"]),
    ("19:9", "gate put", ["18:20-23"]),
    ("19:13", "variable n : Nat", ["19:13-14"]),
    ("19:46", "variable n : Nat", ["19:13-14"]),
    ("20:19", "variable held : Box", ["18:31-35"]),
    ("20:13", "operation open : Box -> Nat, of the type Box", ["9:8-12"]),
    ("19:42", "constructor box : Nat -> Box, of the type Box", ["7:8-11"]),
    ("18:40", "type Box\nsort Box, of the type Box\nconstructor box : Nat -> Box, of the type Box", ["4:6-9", "5:9-12", "7:8-11"]),
    ("16:32", "constructor none : -> Box, of the type Box", ["6:8-12"]),
    ("19:17", "sort Nat, of the type NaturalNumber", []),
    ("13:16", "variable n : Nat", ["10:15-16"]),
    ("12:20", "constructor 0 : -> Nat, of the type NaturalNumber", []),
    ("2:15", "specification S [put, get] : noexit", ["2:15-16"]),
    ("1:10", None, []),
    ("15:3", None, []),
]
# Changes of the text, with the refusals that are due.
CHANGES = [
    ([], []),
    ([("held);", "hold);")], [("20:18-22", 12, "UnknownName")]),
    ([("get !", "got !")], [("20:8-11", 22, "UnknownGate")]),
    ([("get !", "got !"), ("get] (none)", "get] ()")], [("16:31-32", 3, "Unexpected: )"), ("20:8-11", 22, "UnknownGate")]),
    ([("forall n", "forall n, m"), ("open(box(n)) = n", "open(box(n)) = m"), ("box(n))\n", "box(z))\n")],
     [("13:7-11", 18, "LooseVariable: m"), ("19:46-47", 12, "UnknownName")]),
    ([], []),
]


def changed(pairs):
    """The text with some parts changed."""
    text = TEXT
    for old, new in pairs:
        text = text.replace(old, new, 1)
    return text


def server_tests():
    """The tests of the server by itself."""
    editor = Editor()
    editor.put(TEXT)
    yield "server, a text that is accepted", [] if editor.refusals(0) == [] else ["it is refused"]
    for place, told, places in HOVERS:
        got, found = editor.hover(place), editor.definition(place)
        yield f"server, {place}", ([] if got == told else [f"it tells {got!r}"]) + ([] if found == places else [f"it is declared at {found}"])
    due = "S (Box (Box, none, box, eq, open), Holding)"
    yield "server, the outline", [] if editor.outline() == due else [f"it is {editor.outline()}"]
    for pairs, refused in CHANGES:
        editor.put(changed(pairs))
        found = editor.refusals(len(refused))
        yield f"server, {pairs}", [] if found == refused else [f"it tells {found}"]
    editor.put(TEXT.replace("behaviour", "behaviour ]"))
    yield "server, a name in a text that can't be read", [] if editor.hover("20:13") == "operation open : Box -> Nat, of the type Box" else ["it isn't known"]
    yield "server, a process in a text that can't be read", [] if editor.hover("19:24") == HOVERS[0][1] else ["it isn't known"]
    status = editor.end()
    yield "server, its end", [] if status == 0 else [f"status {status}"]


# What Neovim does: it opens a text that isn't saved, waits for the server, and writes what it tells to a file, and of which kinds other files are.
SCRIPT = """
vim.opt.runtimepath:prepend({editors!r})
vim.g.lotos_program = {program!r}
vim.cmd('filetype plugin on | syntax on')
local found = {{}}
local function wait(done) return vim.wait(120000, done, 50) end
local function at(method, line, column)
  local position = {{ line = line - 1, character = column - 1 }}
  local all = vim.lsp.buf_request_sync(0, 'textDocument/' .. method, {{ textDocument = vim.lsp.util.make_text_document_params(), position = position }}, 60000)
  local _, one = next(all)
  return one and one.result
end
vim.cmd('edit ' .. {spec!r})
wait(function() return vim.g.lotos_client and vim.lsp.buf_is_attached(0, vim.g.lotos_client) end)
vim.api.nvim_buf_set_lines(0, 5, 6, false, {{ '  hide middle in (Place [put, middle] |[middle]| Place [middle, got])' }})
wait(function() return #vim.diagnostic.get(0) > 0 end)
for _, one in ipairs(vim.diagnostic.get(0)) do
  table.insert(found, ('refused %d at %d:%d'):format(one.code or one.user_data.lsp.code, one.lnum + 1, one.col + 1))
end
table.insert(found, at('hover', 9, 33).contents.value)
table.insert(found, 'line ' .. at('definition', 9, 34)[1].range.start.line + 1)
table.insert(found, at('documentSymbol', 1, 1)[1].children[1].name)
local function colour(line, column) return vim.fn.synIDattr(vim.fn.synID(line, column, 1), 'name') end
table.insert(found, colour(8, 12) .. ' ' .. colour(9, 6) .. ' ' .. colour(9, 40) .. ' ' .. colour(6, 41))
for _, name in ipairs({{ 'a.script', 'a.trace', 'a.lotos' }}) do
  vim.cmd('edit! ' .. {folder!r} .. '/' .. name)
  table.insert(found, vim.bo.filetype)
end
vim.fn.writefile(found, {folder!r} .. '/found')
vim.cmd('qall!')
"""
DUE = ["refused 22 at 6:65", "variable item : Nat", "line 9", "Place", "lotosName lotosGate lotosCall lotosGateName", "lotosscript", "lotostrace", "lotos"]


def neovim_tests():
    """The tests of the server and of the other files in Neovim."""
    if not shutil.which("nvim"):
        print("left out: the server in Neovim, since nvim isn't there")
        return
    with tempfile.TemporaryDirectory() as folder:
        for name, text in (("a.script", "1: put !0\n"), ("a.trace", "lotos-trace 1\n"), ("a.lotos", TEXT)):
            pathlib.Path(folder, name).write_text(text, encoding="utf-8")
        script = pathlib.Path(folder, "script.lua")
        script.write_text(SCRIPT.format(editors=str(program.TOP / "editors/vim"), program=os.environ["LOTOS"], spec=str(BUFFER), folder=folder), encoding="utf-8")
        known = {**os.environ, "HOME": folder, "XDG_CACHE_HOME": folder, "XDG_STATE_HOME": folder, "XDG_DATA_HOME": folder, "XDG_CONFIG_HOME": folder}
        end = subprocess.run(["nvim", "--headless", "-u", "NONE", "-i", "NONE", "-n", "-S", script], cwd=folder, env=known, stdin=subprocess.DEVNULL,
                             capture_output=True, text=True, timeout=300, check=False)
        path = pathlib.Path(folder, "found")
        got = path.read_text(encoding="utf-8").splitlines() if path.exists() else [re.sub(r"\s+", " ", end.stderr)[-500:]]
    yield "the server in Neovim", [] if got == DUE else [f"it has {got}"]


def all_tests():
    """All tests of editors that run the program."""
    yield from server_tests()
    yield from neovim_tests()
