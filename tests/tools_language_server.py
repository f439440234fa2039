"""`gvis-language-server`: by a client of its own, and by Debian's neovim with its client."""
import json
import os
import re
import signal
import subprocess
import sys
import time

from common import TOP, WATCHDOG, content, entry, more_of, needs, put, put_files, run
from tools_watch import BASE, PATIENCE, put_whole

TOOL = os.path.join(TOP, "share/gvis-language-server")
LIB, USER = "metadata/md5-cache/x/lib-1", "metadata/md5-cache/app/user-1"
MESSAGE = 'RDEPEND can\'t be met: USE="": x/lib (amd64 base stable)'


class Client:
    """The server over the folder R, and what it sent."""

    def __init__(self, binary, folder, *words, root="R", files=BASE):
        self.root = os.path.join(folder, "R")
        put_files(self.root, files)
        self.process = subprocess.Popen([sys.executable, TOOL, "--program", binary, *words], cwd=folder, stdin=subprocess.PIPE, stdout=subprocess.PIPE,
                                        stderr=subprocess.PIPE, env=dict(os.environ, TMPDIR=folder))
        self.held, self.sent, self.shown, self.number = b"", [], {}, 0
        if root is not None:
            self.hello = self.ask("initialize", {"rootUri": self.uri(""), "capabilities": {}})
            self.notify("initialized", {})

    def __enter__(self):
        return self

    def __exit__(self, *_):
        self.process.kill()
        for pipe in (self.process.stdin, self.process.stdout, self.process.stderr):
            try:
                pipe.close()
            except OSError:
                pass
        self.process.wait()

    def uri(self, path):
        return "file://" + os.path.join(self.root, path).rstrip("/")

    def write(self, message):
        body = json.dumps({"jsonrpc": "2.0", **message}).encode()
        self.process.stdin.write(b"Content-Length: %d\r\n\r\n%s" % (len(body), body))
        self.process.stdin.flush()

    def notify(self, method, parameters=None):
        self.write({"method": method, "params": parameters})

    def ask(self, method, parameters=None):
        """The answer to a request."""
        self.number += 1
        self.write({"id": self.number, "method": method, "params": parameters})
        return self.until(lambda message: message.get("id") == self.number)

    def read(self, seconds):
        """The next message, or nothing where it doesn't come in time."""
        end = time.monotonic() + seconds
        while True:
            head, found, rest = self.held.partition(b"\r\n\r\n")
            length = int(head.split(b":")[1]) if found else 0
            if found and len(rest) >= length:
                self.held = rest[length:]
                return json.loads(rest[:length])
            more = more_of(self.process, self.held, end)
            if more is None:
                return None
            self.held = more

    def until(self, wanted):
        """The first message that is wanted; what is shown is kept."""
        end = time.monotonic() + PATIENCE
        while (message := self.read(max(0, end - time.monotonic()))) is not None:
            self.sent.append(message)
            if message.get("method") == "textDocument/publishDiagnostics":
                self.shown[message["params"]["uri"]] = message["params"]["diagnostics"]
            if wanted(message):
                return message
        return None

    def shows(self, path, *wanted):
        """Whether a file comes to have these diagnostics: of each its line, where it begins and ends, and its message."""
        def found(_=None):
            there = [(it["range"]["start"]["line"], it["range"]["start"]["character"], it["range"]["end"]["character"], it["message"])
                     for it in self.shown.get(self.uri(path), [{"range": {"start": {"line": -1, "character": 0}, "end": {"character": 0}}, "message": "nothing yet"}])]
            return there == list(wanted)
        return found() or self.until(found) is not None

    def opens(self, path, text=None):
        self.notify("textDocument/didOpen", {"textDocument": {"uri": self.uri(path), "languageId": "x", "version": 1,
                                                              "text": content(self.root, path) if text is None else text}})

    def changes(self, path, text):
        self.notify("textDocument/didChange", {"textDocument": {"uri": self.uri(path), "version": 2}, "contentChanges": [{"text": text}]})

    def ends(self):
        """The answer to `shutdown`, the status behind `exit`, and what was said on standard error."""
        answer = self.ask("shutdown")
        self.notify("exit")
        status = self.process.wait(PATIENCE)
        return answer["result"], status, self.process.stderr.read().decode()


def at_the_entry_and_the_ebuild(binary, folder):
    """At the item of the class, and at the line of the ebuild that has its atom; behind what is saved and what isn't."""
    ebuild = 'EAPI=8\n# ü 𝄞 x/lib\nRDEPEND="\n\tx/lib\n"\n'
    with Client(binary, folder, files=dict(BASE, **{"profiles/package.mask": "x/lib\n"})) as client:
        client.opens(USER)
        client.opens("app/user/user-1.ebuild", ebuild)
        got = [client.shows(USER, (4, 8, 13, MESSAGE)), client.shows("app/user/user-1.ebuild", (1, 7, 12, MESSAGE))]
        put_whole(client.root, "profiles/package.mask", "")
        got += [client.shows(USER), client.shows("app/user/user-1.ebuild")]
        put_whole(client.root, LIB, entry(KEYWORDS="~amd64"))
        got += [client.shows(USER, (4, 8, 13, MESSAGE)), client.shows("app/user/user-1.ebuild", (1, 7, 12, MESSAGE))]
        client.changes("app/user/user-1.ebuild", ebuild.replace("x/lib\nR", "\nR"))
        got.append(client.shows("app/user/user-1.ebuild", (3, 1, 6, MESSAGE)))
        return (got, client.hello["result"], client.ends()), (
            [True] * 7, {"capabilities": {"textDocumentSync": {"openClose": True, "change": 1, "save": {"includeText": False}}}, "serverInfo": {"name": "gvis"}},
            (None, 0, ""))


def while_one_types(binary, folder):
    """An entry is judged as it stands in the editor, at the packages that rest on it too; closed unsaved it is that of the disk."""
    with Client(binary, folder) as client:
        client.opens(USER)
        client.opens(LIB)
        got = [client.shows(USER), client.shows(LIB)]
        client.changes(LIB, entry(KEYWORDS="~amd64"))
        got.append(client.shows(USER, (4, 8, 13, MESSAGE)))
        client.changes(USER, entry(RDEPEND="x/none"))
        got.append(client.shows(USER, (4, 8, 14, "RDEPEND: no package of the repository matches: x/none"), (4, 8, 14, MESSAGE.replace("x/lib", "x/none"))))
        client.changes(USER, entry(RDEPEND="x/lib", KEYWORDS="amd64 ="))
        got.append(client.shows(USER, (0, 0, 6, "a value that isn't of its form: KEYWORDS: word 2")))
        client.changes(USER, entry(RDEPEND="x/lib"))
        got.append(client.shows(USER, (4, 8, 13, MESSAGE)))
        client.notify("textDocument/didClose", {"textDocument": {"uri": client.uri(LIB)}})
        got.append(client.shows(USER))
        return (got, content(client.root, LIB) == entry(), client.ends()[1:]), ([True] * 7, True, (0, ""))


def what_is_saved_counts(binary, folder):
    """Behind a save an entry is that of the disk again, whoever changes it."""
    with Client(binary, folder) as client:
        client.opens(USER)
        client.changes(USER, entry(RDEPEND="x/none"))
        none = client.shows(USER, (4, 8, 14, "RDEPEND: no package of the repository matches: x/none"), (4, 8, 14, MESSAGE.replace("x/lib", "x/none")))
        put(client.root, USER, entry(RDEPEND="x/none"))
        client.notify("textDocument/didSave", {"textDocument": {"uri": client.uri(USER)}})
        put_whole(client.root, USER, entry(RDEPEND="x/lib"))
        return (none, client.shows(USER), client.ends()[1:]), (True, True, (0, ""))


def profiles_and_their_files(binary, folder):
    """Reports of lines stand at these; those that differ in profiles alone are one."""
    profiles = "".join(f"amd64 {name} {status}\n" for name, status in (("base", "stable"), ("b", "stable"), ("c", "stable"), ("d", "stable"), ("e", "dev")))
    files = dict(BASE, **{"profiles/profiles.desc": profiles, "profiles/package.mask": "# none\nx/lib\nwhat is this\n"}, **{f"profiles/{name}/eapi": "8\n" for name in "bcde"})
    with Client(binary, folder, files=files) as client:
        client.opens("profiles/package.mask")
        client.opens(USER)
        told = "RDEPEND can't be met: USE=\"\": x/lib (%s)"
        got = [client.shows("profiles/package.mask", (2, 0, 12, "ProfileNote: bad atom")),
               client.shows(USER, (4, 8, 13, told % "amd64 base stable, amd64 b stable, amd64 c stable and 1 more"), (4, 8, 13, told % "amd64 e stable"))]
        levels = [it["severity"] for it in client.shown[client.uri(USER)]]
        return (got, levels, client.ends()[1:]), ([True, True], [1, 2], (0, ""))


def what_is_recovered(binary, folder):
    """A repository that is none for a while: what was shown stays, and it is told."""
    with Client(binary, folder, files=dict(BASE, **{"profiles/package.mask": "x/lib\n"})) as client:
        client.opens(USER)
        shown = client.shows(USER, (4, 8, 13, MESSAGE))
        os.rename(os.path.join(client.root, "profiles/categories"), os.path.join(folder, "categories"))
        told = client.until(lambda it: "no report: gvis session ended with status 6" in it.get("params", {}).get("message", "")) is not None
        os.rename(os.path.join(folder, "categories"), os.path.join(client.root, "profiles/categories"))
        put_whole(client.root, "profiles/package.mask", "")
        return (shown, told, client.shows(USER), client.ends()[1:]), (True, True, True, (0, "gvis: not a repository: profiles/categories\n"))


def other_messages(binary, folder):
    """Requests that aren't served, those before `initialize`, what is no JSON, and notifications that don't matter."""
    with Client(binary, folder, root=None) as client:
        early = client.ask("textDocument/hover", {})
        client.process.stdin.write(b"Content-Length: 3\r\nContent-Type: a\r\n\r\n{{{")
        client.process.stdin.flush()
        bad = client.until(lambda it: "error" in it and it.get("id") is None)
        client.notify("$/setTrace", {"value": "off"})
        client.ask("initialize", {"rootPath": client.root})
        client.notify("initialized", {})
        other = client.ask("textDocument/hover", {})
        client.notify("textDocument/didOpen", {"textDocument": {"uri": "file:///elsewhere/a-1.ebuild", "text": ""}})
        client.notify("workspace/didChangeConfiguration", {})
        client.opens(USER)
        return (early["error"], bad["error"], other["error"], client.shows(USER), list(client.shown), client.ends()), (
            {"code": -32002, "message": "initialize comes first"}, {"code": -32700, "message": "no JSON"},
            {"code": -32601, "message": "textDocument/hover isn't served"}, True, [client.uri(USER)], (None, 0, ""))


def how_it_ends(binary, folder):
    """Without `shutdown`, without the editor, by a signal, and where nothing can be watched."""
    got = {}
    with Client(binary, folder + "/exit") as client:
        client.notify("exit")
        got["exit"] = client.process.wait(PATIENCE)
    with Client(binary, folder + "/gone") as client:
        client.process.stdin.close()
        got["gone"] = client.process.wait(PATIENCE), client.process.stderr.read()
    with Client(binary, folder + "/signal") as client:
        client.ask("textDocument/hover", {})
        client.process.send_signal(signal.SIGTERM)
        got["signal"] = client.process.wait(PATIENCE), client.process.stderr.read()
    with Client(binary, folder + "/none", root=None) as client:
        client.ask("initialize", {})
        client.notify("initialized", {})
        got["no folder"] = client.process.wait(PATIENCE), client.process.stderr.read()
    return got, {"exit": 1, "gone": (1, b""), "signal": (0, b""), "no folder": (1, b"gvis-language-server: the editor names no folder, and none was given\n")}


# Neovim's own client. It writes what it shows into a file, step by step.
SCRIPT = """
local out = io.open(OUT, 'w')
local function shown(wanted)
  local function is_so()
    local all = vim.diagnostic.get(0)
    return wanted == nil and #all == 0 or #all == 1 and string.find(all[1].message, wanted or 'nothing', 1, true) ~= nil
  end
  local there, found = vim.wait(60000, is_so, 20), {}
  for _, it in ipairs(vim.diagnostic.get(0)) do table.insert(found, {it.lnum, it.col, it.end_col, it.severity, it.source, it.message}) end
  out:write(vim.json.encode({there, found}), '\\n')
end
vim.cmd('edit R/' .. USER)
shown('x/lib (amd64')
vim.api.nvim_buf_set_lines(0, 4, 5, true, {'RDEPEND='})
shown(nil)
vim.cmd('undo')
shown('x/lib (amd64')
vim.cmd('%s/^RDEPEND=.*/RDEPEND=a? ( x\\\\/lib )/')
vim.cmd('2s/$/\\\\rIUSE=a/')
shown('a? ( x/lib )')
vim.cmd('write')
vim.cmd('edit R/app/user/user-1.ebuild')
shown('a? ( x/lib )')
out:close()
local client = vim.lsp.get_active_clients()[1]
vim.lsp.stop_client(client.id)
vim.wait(60000, function() return vim.lsp.client_is_stopped(client.id) end, 20)
vim.cmd('qall!')
"""


@needs("nvim")
def neovim_shows_it(binary, folder):
    """As share/README.md sets it up."""
    put_files(folder + "/R", dict(BASE, **{"profiles/package.mask": "x/lib\n"}))
    os.makedirs(folder + "/bin")
    os.symlink(binary, folder + "/bin/gvis")
    os.symlink(TOOL, folder + "/bin/gvis-language-server")
    setting = re.search(r"^```lua\n(.*?)^```", content(TOP, "share/README.md"), re.M | re.S)[1]
    put(folder, "init.lua", setting.replace("/var/db/repos/mine", folder + "/R"))
    put(folder, "script.lua", f"local OUT, USER = {json.dumps(folder + '/out')}, {json.dumps(USER)}\n" + SCRIPT)
    env = dict(os.environ, HOME=folder, XDG_STATE_HOME=folder, XDG_DATA_HOME=folder, XDG_CONFIG_HOME=folder, PATH=folder + "/bin:" + os.environ["PATH"])
    done = run(["nvim", "--headless", "-u", "init.lua", "-n", "-i", "NONE", "-c", "luafile script.lua"], cwd=folder, env=env, timeout=400)
    told = 'RDEPEND can\'t be met: USE="a": a? ( x/lib ) (amd64 base stable)'
    got = [json.loads(line) for line in content(folder, "out").splitlines()]
    return (done[0], got), (0, [
        [True, [[4, 8, 13, 1, "gvis", MESSAGE]]], [True, []], [True, [[4, 8, 13, 1, "gvis", MESSAGE]]], [True, [[5, 8, 20, 1, "gvis", told]]], [True, [[0, 0, 0, 1, "gvis", told]]]])


CASES = [needs(WATCHDOG, *getattr(case, "needs", ()))(case) for case in (
    at_the_entry_and_the_ebuild, while_one_types, what_is_saved_counts, profiles_and_their_files, what_is_recovered, other_messages, how_it_ends, neovim_shows_it)]
