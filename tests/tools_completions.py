"""Asks each shell what it completes."""
import os
import re
import shutil

from common import COMPLETION, TOP, needs, on_terminal, put, run
from tools_words import OUTSIDE, Words

SHARE = os.path.join(TOP, "share/completions")
PATHS = ["default/linux/amd64", "default/linux/riscv"]


def prepare(folder):
    """A folder with a repository, files, and a command `gvis` that is never called."""
    shutil.copytree(os.path.join(TOP, "examples/repo"), os.path.join(folder, "work/my repo"))
    os.symlink("my repo", os.path.join(folder, "work/repo"))
    put(folder, "work/repository/profiles/profiles.desc", "# amd64 not/this stable\nx86 # not/that stable\n\n \tx86\ttab/path\texp rest\nriscv last/path dev")
    put(folder, "work/certs", "")
    put(folder, "bin/gvis", "#!/bin/sh\n", 0o755)
    env = {"PATH": os.path.join(folder, "bin") + ":" + os.environ["PATH"], "HOME": folder, "TERM": "dumb", "LANG": "C.UTF-8"}
    return {"cwd": os.path.join(folder, "work"), "env": env}


BASH = r"""
source "$0"
compopt() { :; }
COMP_WORDS=("$@") COMP_CWORD=$(($# - 1))
called=$(complete -p gvis)
called=${called#*-F }
${called%% *}
printf '%s\n' "${COMPREPLY[@]}"
"""


# Each of these answers what the shell offers where the line ends.

def bash(folder, line, given={}):
    """By the function that the shell calls, with the words as readline parts them."""
    words = [w for w in re.split(r"(?<!\\) +|(=)", line) if w is not None]
    words = words[:-1] if words[-2:] == ["=", ""] else words
    status, out, err = run(["bash", "--norc", "-c", BASH, os.path.join(SHARE, "gvis.bash"), *words], **(given or prepare(folder)))
    return sorted(out.split("\n")[:-1]) if out != "\n" else [], err


def fish(folder, line, given={}):
    status, out, err = run(["fish", "--no-config", "-c", f"set -p fish_complete_path {SHARE}; complete -C $argv[1]", line], **(given or prepare(folder)))
    return sorted(x.split("\t")[0] for x in out.splitlines()), err


def zsh(folder, line, given={}):
    """By typing the line and a tab on a terminal; every match is written to a file, as the shell hands it to its list."""
    given = given or prepare(folder)
    put(folder, ".zshrc", f"""
PS1='ready> '; unsetopt zle_bracketed_paste prompt_sp; setopt no_always_last_prompt
fpath=({SHARE} $fpath); autoload -Uz compinit; compinit -u -D
zstyle ':completion:*' verbose no
compadd() {{
  if [[ ${{@[1,(i)(-|--)]}} == *-(O|A|D)\\ * ]]; then builtin compadd "$@"; return $?; fi
  local -a kept; builtin compadd -A kept "$@"; print -rl -- $kept >>{folder}/matches
  builtin compadd "$@"
}}
zle -C ask list-choices _main_complete; bindkey '^X' ask
asked() {{ : >{folder}/matches; zle ask; print -r done >>{folder}/done; zle kill-buffer }}
zle -N asked; bindkey '^T' asked
""")
    given["env"]["ZDOTDIR"] = folder
    on_terminal(["zsh", "-i"], [("ready> ", line), (None, "\x14"), (None, "exit\r")], **given)
    with open(os.path.join(folder, "matches"), encoding="utf-8") as f:
        return sorted(set(f.read().splitlines()) - {""}), ""


def ask(shell, folder, lines):
    given = prepare(folder)
    got = {line: shell(folder, line, given) for line in lines}
    return {line: offered for line, (offered, _) in got.items()}, "".join(err for _, err in got.values())


def wanted(binary):
    """What every shell has to offer, in its own form: plain words, without what was typed before the last comma."""
    words = Words(binary)
    lists = {
        "gvis scan repo --profiles ": PATHS,
        "gvis scan repo --certs certs --json --profiles ": PATHS,
        "gvis scan repo --profiles " + PATHS[0] + ",": PATHS[1:],
        "gvis scan repository --profiles=": ["last/path", "tab/path"],
        "gvis scan --profiles ": [],
        "gvis scan repo --keywords ": sorted(words.of_scan),
        "gvis lint repo --keywords ": sorted(words.of_lint),
        "gvis lint repo --keywords=RedundantVersion,R": ["RequiredUseDefaults"],
        "gvis lint repo --profiles ": PATHS,
        "gvis scan repo --keywords=Un": ["UnsatisfiableRequiredUse", "UnstatedIuse"],
        "gvis scan repo --keywords StaleCache,M": ["MetadataError", "MissingCache"],
        "gvis nothing ": [],
    }
    for name in words.all:
        # (a command that the program doesn't take is none to the shell)
        lists[f"gvis {name} --"] = sorted(words.behind(name)) if name in words.taken else []
    return words, lists


def plain(offered):
    """Without the option and the texts before the last comma, which some shells write again."""
    return sorted(re.sub(r"^(--\w+=)?(.*,)?", "", word) for word in offered)


def completes(shell, outside):
    def case(binary, folder):
        words, lists = wanted(binary)
        got, err = ask(shell, folder, [*lists, "gvis ", "gvis -", "gvis scan r", "gvis scan repo --certs c", "gvis scan repo --certs=c"])
        first = set(got.pop("gvis ")) | set(got.pop("gvis -"))
        files = [[w.split("=")[-1].rstrip("/") for w in got.pop(line)] for line in ("gvis scan r", "gvis scan repo --certs c", "gvis scan repo --certs=c")]
        return ({line: plain(offered) for line, offered in got.items()}, first, files, err), (
            lists, set(words.taken) | set(outside), [["repo", "repository"], ["certs"], ["certs"]], "")
    case.__name__ = shell.__name__ + "_completes"
    return case


def typed_in_bash(binary, folder):
    """The line that stands after a tab, in an interactive shell that finds the file as bash-completion does."""
    given = prepare(folder)
    put(folder, "data/bash-completion/completions/gvis", open(os.path.join(SHARE, "gvis.bash"), "rb").read())
    put(folder, ".bashrc", f"source {COMPLETION}; PS1='ready> '; bind 'set enable-bracketed-paste off'\n")
    given["env"]["XDG_DATA_DIRS"] = os.path.join(folder, "data")
    lines = {"gvis sc\t": "gvis scan ", "gvis scan my\t": "gvis scan my\\ repo/", "gvis scan my\\ repo --pro\tdefault/linux/a\t": "gvis scan my\\ repo --profiles default/linux/amd64",
             "gvis scan repo --keywords=St\t": "gvis scan repo --keywords=StaleCache", "gvis scan repo --keywords=StaleCache,Mis\t": "gvis scan repo --keywords=StaleCache,MissingCache",
             "gvis scan repo --certs=ce\t": "gvis scan repo --certs=certs "}
    got = {}
    for line in lines:
        # ^A and "#" make the line a comment, so that it isn't run
        status, shown = on_terminal(["bash", "-i"], [("ready> ", line), (None, "END\x01# \r"), (None, "exit\r")], **given)
        found = re.findall(r"# (gvis .*?)END", re.sub(r"\x1b\[[0-9;?]*[A-Za-z]|\x07|\r|.\x08", "", shown))
        got[line] = found[-1] if found else shown
    return got, lines


typed_in_bash.needs = (COMPLETION,)
bash_case = needs("bash")(completes(bash, OUTSIDE[0:1] + OUTSIDE[2:]))
fish_case = needs("fish")(completes(fish, OUTSIDE))
zsh_case = needs("zsh")(completes(zsh, OUTSIDE))
CASES = [bash_case, fish_case, zsh_case, typed_in_bash]
