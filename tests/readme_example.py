"""The program prints for examples/repo what README shows: the first block that is indented behind the line that ends with "The first
call prints:". Its queries are those that are stored here, and those of the plain program. Nothing there is preferred on and no
profile accepts testing, so that the rules of these change neither.
"""
import hashlib
import os

import backing
import plain
import plain_run
from common import TOP, bytes_of, content, run

QUERIES, DIGEST = 120, "5761fe92252a07cd97921176ecfa6587"


def shown():
    lines = iter(content(TOP, "README.md").split("\n"))
    for line in lines:
        if line.endswith("The first call prints:"):
            break
    example = []
    for line in lines:
        if line.startswith("    "):
            example.append(line[4:] + "\n")
        elif example:
            break
    return "".join(example)


def the_program_prints_what_readme_shows(binary, folder):
    return (*run([binary, "scan", "examples/repo", "--certs", folder + "/C"], cwd=TOP), shown() != ""), (1, shown(), "", True)


def repository():
    files = {}
    for at, _, names in os.walk(os.path.join(TOP, "examples/repo")):
        files.update({os.path.relpath(os.path.join(at, name), os.path.join(TOP, "examples/repo")): bytes_of(at, name) for name in names})
    return plain.Files(files)


def its_queries_are_as_stored(binary, folder):
    run([binary, "scan", "examples/repo", "--certs", folder + "/C"], cwd=TOP)
    queries = [query for query, _ in backing.records(bytes_of(folder, "C"))]
    files = repository()
    packages, profiles = plain.repository_of(files)
    asked = [gates for _, gates in plain_run.gates_within_limits(files, {"keywords": None, "profiles": None})]
    changed = [it["pf"] for it in packages if it["plus"]] + [it["path"] for it in profiles if it["testing"]]
    return (len(asked), hashlib.md5(b"".join(asked)).hexdigest(), queries == list(dict.fromkeys(asked)), changed), (QUERIES, DIGEST, True, [])


CASES = [the_program_prints_what_readme_shows, its_queries_are_as_stored]
