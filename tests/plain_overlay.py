"""The plain program's overlays, by docs/rules.md alone: folders of one map of files seen as repositories, and what is told of an overlay's
packages among those of its masters.

    scan(files, name, keywords, profiles, json) -> (status, out, err)
"""
import plain

MOST_MASTERS, LAYOUT = 8, "metadata/layout.conf"
LISTS = "profiles/categories"


class Bad(Exception):
    """That a layout names no masters: with the limit that it passes, or with nothing."""


def masters_in(name, layout):
    """The masters that a layout names."""
    pairs = [line.partition("=")[::2] for line in layout.split("\n") if "=" in line]
    named = [behind for front, behind in pairs if front.strip(" \t\r") == "masters"]
    words = next(plain.rows_of(named[0])) if named else []
    if len(words) > MOST_MASTERS:
        raise Bad(MOST_MASTERS)
    if not words or len({name, *words}) <= len(words) or not all(map(plain.is_part, words)):
        raise Bad(None)
    return words


def folder_view(files, folder):
    """What a master has: the files below its folder."""
    front = folder + "/"
    return {path[len(front):]: text for path, text in files.items() if path.startswith(front)}


def overlay_view(files, name, masters):
    """What an overlay has over its masters."""
    own, views = folder_view(files, name), [folder_view(files, master) for master in masters]
    view = {path: text for path, text in own.items() if not path.startswith(("profiles/", "eclass/"))}
    for other in [*views, own]:
        view.update((path, text) for path, text in other.items() if path.startswith("eclass/"))
    view.update((path, text) for path, text in views[0].items() if path.startswith("profiles/") and path != LISTS)
    lists = [other[LISTS] for other in [*views, own] if LISTS in other]
    if lists:
        view[LISTS] = "".join(text + "\n" for text in lists)
    return view


def repository_of(files, name, masters):
    """The packages of all, the profiles, the overlay's packages, and what is told of the overlay's entries."""
    notes = []
    own, profiles = plain.repository_of(plain.Files(overlay_view(files, name, masters)), notes)
    others = [package for master in masters for package in plain.read_packages(plain.Files(folder_view(files, master)), [])]
    return sorted(others + own, key=plain.place_of), profiles, own, [note for note in notes if "subject" in note]


def text_of(repository, keywords=None, profiles=None, as_json=False):
    """The text of a scan of an overlay."""
    packages, known, own, notes = repository
    return plain.text_of_reports(notes + plain.judging(packages, known, judged=own), keywords, profiles, as_json)


def scan(content, name, keywords=None, profiles=None, as_json=False):
    files = plain.Files(content).texts
    path = f"{name}/{LAYOUT}"
    try:
        masters = masters_in(name, files.get(path, ""))
    except Bad as bad:
        limit = bad.args[0]
        return (7, "", f"gvis: limit: {path} {limit}\n") if limit else (6, "", f"gvis: not a repository: {path}\n")
    for front, view in [*((master + "/", folder_view(files, master)) for master in masters), ("", overlay_view(files, name, masters))]:
        for needed in ("profiles/profiles.desc", LISTS):
            if needed not in view:
                return 6, "", f"gvis: not a repository: {front}{needed}\n"
    out = text_of(repository_of(files, name, masters), keywords, profiles, as_json)
    return (1 if out else 0), out, ""
