"""Planted faults, for the checks beside it: each is put into a copy of the sources, where the check must find it."""
import os
import shutil
import tempfile


def text_of(path):
    with open(path, encoding="utf8") as file:
        return file.read()


def write(path, text):
    os.makedirs(os.path.dirname(path) or ".", exist_ok=True)
    with open(path, "w", encoding="utf8") as file:
        file.write(text)


def put(path, old, new):
    """Exchanges a text that stands once in a file, or with no old text adds the new one at the file's end."""
    text = text_of(path) if os.path.exists(path) else ""
    if old and text.count(old) != 1:
        raise ValueError(f"{path} has {text.count(old)} times what the planted fault changes: {old}")
    write(path, text.replace(old, new) if old else text + new)


def found_by(check, before, word, changes):
    """The first new fault with this word that the check finds after the changes, which are taken back; or None."""
    was = {path: text_of(path) if os.path.exists(path) else None for path, _, _ in changes}
    for change in changes:
        put(*change)
    found = [fault for fault in check() if fault not in before and word in fault]
    for path, text in was.items():
        if text is None:
            os.remove(path)
        else:
            write(path, text)
    return found[0] if found else None


def planted(tool, check, copied, cases):
    """Tries each case, (what the fault must say, [(path, old, new) ..]), in a copy; 1 where one was not found."""
    root, missed = os.getcwd(), 0
    before = set(check())
    with tempfile.TemporaryDirectory() as room:
        for name in copied:
            if os.path.isdir(name):
                shutil.copytree(name, os.path.join(room, name), ignore=shutil.ignore_patterns("out"))
            else:
                os.makedirs(os.path.dirname(os.path.join(room, name)), exist_ok=True)
                shutil.copy(name, os.path.join(room, name))
        os.chdir(room)
        for word, changes in cases:
            fault = found_by(check, before, word, changes)
            print(f"planted in {changes[-1][0]}: " + (fault or f"NOT FOUND: {word}"))
            missed += not fault
        os.chdir(root)
    print(f"{tool}: {len(cases) - missed} of {len(cases)} planted faults found")
    return 1 if missed else 0
