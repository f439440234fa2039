"""No crate of the repository names what stands in another one's proofs/: looks through each file of src/, specs/ and proofs/. The
crates of the kit aren't meant.
"""
import os
import re

from common import TOP

ALONE = True
CRATES = os.path.join(TOP, "crates")
NAMED = re.compile(r"\bRattle\.(\w+)\.proofs\b|\b(\w+)::proofs::")


def files_of(crate):
    for part in ("src", "specs", "proofs"):
        for folder, _, names in os.walk(os.path.join(CRATES, crate, part)):
            yield from (os.path.join(folder, name) for name in sorted(names) if name.endswith((".rt", ".antt")))


def no_crate_names_the_proofs_of_another(*_):
    crates = {name for name in os.listdir(CRATES) if os.path.isdir(os.path.join(CRATES, name, "src"))}
    read, found = 0, []
    for crate in sorted(crates):
        for path in files_of(crate):
            read += 1
            with open(path, encoding="utf-8") as f:
                for number, line in enumerate(f, 1):
                    for named in {a or b for a, b in NAMED.findall(line)} & crates - {crate}:
                        found.append(f"crates/{os.path.relpath(path, CRATES)}:{number}: names the proofs of {named}")
    return (found, read > 0), ([], True)


CASES = [no_crate_names_the_proofs_of_another]
