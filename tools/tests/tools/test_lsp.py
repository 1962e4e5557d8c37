"""netconf-lsp, by a client of the tests and in neovim: diagnostics, hover, go to definition and completion."""

import json
import pathlib
import subprocess
import unittest
from typing import Any

from netconf_tools.language_server import read_message, uri_of, write_message
from tests.case import TOOLS, Case, outcome

LSP = TOOLS / "netconf-lsp"

BOARD = """//! let RAM = 0x80000000
dram is accept [0 size 1G];
module soc(node memory);
  bus is map [RAM size 1G to memory at 0x0];
  agent card is map [0 size 64K to iommu at 0x0];
  unit iommu kind pages page 12 slots 16 reach 32 to bus;
end;
use soc(node dram) as a;
begin;
grant rx a.card dram 0x4000 4K;
resolve a.card 0x10;
revoke rx;
view a.card;
"""

NVIM = """
local seen = {}
local client = vim.lsp.start_client({ cmd = { TOOL }, root_dir = vim.fn.getcwd() })
vim.cmd('edit ' .. FILE)
vim.lsp.buf_attach_client(0, client)
vim.wait(15000, function() return #vim.diagnostic.get(0) > 0 end, 50)
for _, found in ipairs(vim.diagnostic.get(0)) do
  table.insert(seen, string.format('%d:%d: %s', found.lnum + 1, found.col + 1, found.message))
end
vim.api.nvim_win_set_cursor(0, { 2, 16 })
local params = vim.lsp.util.make_position_params()
for _, method in ipairs({ 'textDocument/hover', 'textDocument/definition' }) do
  local answers = vim.lsp.buf_request_sync(0, method, params, 15000) or {}
  for _, answer in pairs(answers) do
    local result = answer.result
    local line = result.range and string.format('line %d', result.range.start.line + 1)
    table.insert(seen, result.contents and result.contents.value or line)
  end
end
vim.fn.writefile(vim.split(table.concat(seen, '\\n'), '\\n'), SEEN)
vim.cmd('qall!')
"""


class Client:
    """Speaks with a server."""

    def __init__(self, folder: pathlib.Path) -> None:
        self.server = subprocess.Popen([str(LSP), "--stdio"], stdin=subprocess.PIPE, stdout=subprocess.PIPE)
        self.path = folder / "board.net"
        self.number = 0
        self.published: list[tuple[str, list[dict[str, Any]]]] = []

    def tell(self, method: str, **params: Any) -> None:
        """Sends a message that has no answer."""
        assert self.server.stdin
        write_message(self.server.stdin, {"method": method, "params": params})

    def next(self) -> dict[str, Any]:
        """The next message of the server; what it shows is kept."""
        assert self.server.stdout
        message = read_message(self.server.stdout)
        assert message is not None
        if message.get("method") == "textDocument/publishDiagnostics":
            self.published.append((message["params"]["uri"], message["params"]["diagnostics"]))
        return message

    def ask(self, method: str, **params: Any) -> Any:
        """The answer to a question."""
        assert self.server.stdin
        self.number += 1
        write_message(self.server.stdin, {"id": self.number, "method": method, "params": params})
        while (message := self.next()).get("id") != self.number:
            pass
        return message.get("result", message.get("error"))

    def open(self, text: str) -> None:
        """Opens a text as a document of the editor."""
        self.tell("textDocument/didOpen", textDocument={"uri": uri_of(str(self.path)), "version": 1, "text": text})

    def change(self, text: str) -> None:
        """Changes the text."""
        self.tell(
            "textDocument/didChange", textDocument={"uri": uri_of(str(self.path))}, contentChanges=[{"text": text}]
        )

    def at(self, method: str, text: str, word: str, count: int = 0, after: bool = False) -> Any:
        """The answer to a question about a word in the text, the first or a later one, or the place after it."""
        place = -1
        for _ in range(count + 1):
            place = text.index(word, place + 1)
        place += len(word) if after else 0
        line = text.count("\n", 0, place)
        position = {"line": line, "character": place - (text.rfind("\n", 0, place) + 1)}
        return self.ask(f"textDocument/{method}", textDocument={"uri": uri_of(str(self.path))}, position=position)

    def end(self) -> int:
        """Ends the server, and returns its status."""
        self.ask("shutdown")
        self.tell("exit")
        assert self.server.stdin and self.server.stdout
        self.server.stdin.close()
        status = self.server.wait()
        self.server.stdout.close()
        return status


class TestServer(Case):
    """The server by a client of the tests."""

    def setUp(self) -> None:
        """Starts a server, and opens the board."""
        self.client = Client(self.folder)
        answer = self.client.ask("initialize", processId=None, rootUri=None, capabilities={})
        self.assertEqual(answer["serverInfo"]["name"], "netconf-lsp")

    def tearDown(self) -> None:
        """Ends the server."""
        self.assertEqual(self.client.end(), 0)

    def messages(self) -> list[tuple[int, int, str, int]]:
        """What is shown next: for each diagnostic its line and column, its message and its severity."""
        count = len(self.client.published)
        while len(self.client.published) == count:
            self.client.next()
        return [
            (
                found["range"]["start"]["line"] + 1,
                found["range"]["start"]["character"] + 1,
                found["message"],
                found["severity"],
            )
            for found in self.client.published[-1][1]
        ]

    def value(self, answer: Any) -> str:
        """The text of a hover without its fence."""
        return str(answer["contents"]["value"]).removeprefix("```netconf\n").removesuffix("\n```")

    def test_diagnostics(self) -> None:
        """Diagnostics are those of netconf-lint, and go when the text is right."""
        self.client.open(BOARD.replace("view a.card", "view a.crad"))
        self.assertEqual(
            self.messages(), [(13, 6, "view a.crad: there is no node `a.crad`; did you mean `a.card`?", 2)]
        )
        self.client.change(BOARD.replace("kind pages", "kind"))
        self.assertEqual(self.messages(), [(6, 24, "Statement: unexpected `12`, expected `page`", 1)])
        self.client.change(BOARD)
        self.assertEqual(self.messages(), [])

    def test_includes(self) -> None:
        """What is wrong in a file that is included is shown in that file."""
        other = self.folder / "other.net"
        other.write_text("a is;\na is;\n")
        self.client.open('//! include "other.net"\n')
        self.messages()
        while not any(found for _, found in self.client.published):
            self.client.next()
        uri, found = next(pair for pair in self.client.published if pair[1])
        self.assertEqual(
            (uri, found[0]["message"], found[0]["range"]["start"]),
            (uri_of(str(other)), "Duplicate: `a` is already declared", {"line": 1, "character": 0}),
        )
        self.assertEqual(found[0]["relatedInformation"][0]["message"], "a is declared here first")

    def test_hover(self) -> None:
        """An agent with what it sees, a unit with its shape, what a grant came to, and what an address comes to."""
        self.client.open(BOARD)
        cases = {
            ("a.card dram", 0): "agent a.card\nmaps 0x0-0xffff to a.iommu at 0x0\n\nview a.card rows 0",
            ("iommu kind", 0): "unit a.iommu kind pages: 16 slots of 2^12 addresses, outputs below 2^32, to a.bus",
            ("rx", 0): "rx at 0x0",
            ("0x10", 0): "a.card@0x10: dram@0x4010",
            ("dram 0x4000", 0): "dram\naccepts 0x0-0x3fffffff",
            ("view", 0): "view a.card rows 0",
        }
        for (word, count), wanted in cases.items():
            with self.subTest(word):
                self.assertEqual(self.value(self.client.at("hover", BOARD, word, count)), wanted)
        self.assertIsNone(self.client.at("hover", BOARD, "//! let"))

    def test_definition(self) -> None:
        """A reference in a module, a node in a command, a module, and the grant of an id."""
        self.client.open(BOARD)
        for word, count, after, line in (
            ("bus;", 0, False, 4),
            ("iommu at", 0, False, 6),
            ("card 0x10", 0, False, 5),
            ("soc(node dram", 0, False, 3),
            ("rx;", 0, False, 10),
            ("dram 0x4000", 0, False, 2),
        ):
            with self.subTest(word):
                self.assertEqual(
                    self.client.at("definition", BOARD, word, count, after)["range"]["start"]["line"] + 1, line
                )
        self.assertIsNone(self.client.at("definition", BOARD, "slots"))

    def test_completion(self) -> None:
        """What may stand at a place: keywords, agents, nodes, kinds, modules and ids."""
        self.client.open(BOARD)
        cases = [
            ("kind ", ["pages", "remap", "vectors", "radix"]),
            ("use ", ["soc"]),
            ("view ", ["a.card"]),
            ("grant rx ", ["a.card"]),
            ("resolve ", ["a.bus", "a.card", "a.iommu", "dram"]),
            ("revoke ", ["rx"]),
            ("slots 16 ", ["reach"]),
            ("dram is ", ["accept", "map", "over"]),
            ("32 to ", ["bus", "card", "iommu"]),
        ]
        for word, wanted in cases:
            with self.subTest(word):
                answer = self.client.at("completion", BOARD, word, after=True)
                self.assertEqual([item["label"] for item in answer], wanted)
        labels = [item["label"] for item in self.client.at("completion", BOARD, "begin;\n", after=True)]
        self.assertIn("gather", labels)
        self.assertNotIn("unit", labels)

    def test_broken_messages(self) -> None:
        """A method that there is not, and params without form, have an error for an answer; the server goes on."""
        self.assertEqual(self.client.ask("textDocument/rename")["code"], -32601)
        self.assertEqual(self.client.ask("textDocument/hover")["code"], -32603)
        self.client.tell("textDocument/didOpen")
        self.client.tell("$/cancelRequest", id=1)
        self.client.open(BOARD)
        self.assertEqual(self.messages(), [])


class TestEditor(Case):
    """The server in neovim."""

    def test_neovim(self) -> None:
        """Neovim's own client shows the diagnostics, what is hovered over, and where it is declared."""
        self.need("nvim", "neovim")
        board, seen, script = self.folder / "board.net", self.folder / "seen", self.folder / "try.lua"
        board.write_text("dram is accept [0x0-0xfff];\nagent a is over dram;\nbegin;\nview b;\n")
        names = {"TOOL": str(LSP), "FILE": str(board), "SEEN": str(seen)}
        script.write_text("".join(f"local {name} = {json.dumps(value)}\n" for name, value in names.items()) + NVIM)
        status, _, errors = outcome(
            "nvim",
            "--headless",
            "-u",
            "NONE",
            "-i",
            "NONE",
            "-n",
            "-S",
            script,
            folder=self.folder,
            XDG_STATE_HOME=str(self.folder),
            XDG_CACHE_HOME=str(self.folder),
            XDG_DATA_HOME=str(self.folder),
        )
        self.assertTrue(seen.exists(), errors)
        self.assertEqual(
            (status, seen.read_text().splitlines()),
            (0, ["4:6: view b: there is no node `b`", "```netconf", "dram", "accepts 0x0-0xfff", "```", "line 1"]),
        )


if __name__ == "__main__":
    unittest.main()
