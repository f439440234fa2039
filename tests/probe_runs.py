"""The runs of crates/gv_probe/data by the built program over real files, beside what stands there of files in memory.

Each call `run WORDS` without a line `set` is made in an empty folder, where the files stand below R and those of the store beside it;
status, output and errors have to be those that stand behind the call. A run that is refused leaves what stood beside R.
"""
import os

import lines
from common import bytes_of, called, named, put_files

COUNT = {"runs": 0, "passed over, with a path that no real folder takes": 0}


def as_bytes(files):
    return {path: text.encode("latin-1") if isinstance(text, str) else text for path, text in files.items()}


def ran(binary, folder, outside, words):
    status, out, err = called([binary, *(word.encode("latin-1") for word in words)], cwd=folder, input=outside.input.encode("latin-1"))
    found, left = as_bytes(outside.found()), {name: bytes_of(folder, name) for name in os.listdir(folder) if name != "R"}
    outside.leave(left)
    touched = status > 1 and left != found
    return [f"= {status}", *lines.marked("!", err.decode("latin-1")), *lines.marked(">", out.decode("latin-1")), *["another store"] * touched]


def is_put(folder, outside):
    """Writes the files, where a real folder takes their paths."""
    os.makedirs(os.path.join(folder, "R"))
    try:
        put_files(os.path.join(folder, "R"), as_bytes(outside.files))
        put_files(folder, as_bytes(outside.found()))
    except OSError:
        COUNT["passed over, with a path that no real folder takes"] += 1
        return False
    COUNT["runs"] += 1
    return True


def runs(name, heading, binary, folder):
    got, want, is_known = {}, {}, True
    for place, asked, answer, outside in lines.calls(name, heading):
        if asked.split(" ")[0] == "run":
            own = os.path.join(folder, place.replace(":", "-"))
            # (what a run left that wasn't made here isn't known)
            is_known = outside.is_real() and (is_known or not outside.keeps) and is_put(own, outside)
            if is_known:
                want[f"{place} {asked}"] = answer
                got[f"{place} {asked}"] = ran(binary, own, outside, asked[4:].split(" ") if asked[4:] else [])
    return got, want


def told():
    return ", ".join(f"{count} {what}" for what, count in COUNT.items())


def has_runs(name, heading):
    return any(asked.split(" ")[0] == "run" and outside.is_real() for _, asked, _, outside in lines.calls(name, heading))


CASES = [named(f"{name}: {heading}", runs, name, heading) for name in lines.files() for heading in lines.headings_of(name) if has_runs(name, heading)]
