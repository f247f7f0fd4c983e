"""The tree as pages name it: its files and folders, and the names that its code declares."""
import functools
import os
import pathlib
import re

ROOT = pathlib.Path(__file__).resolve().parents[2]
NOT_THE_TREE = {".git", "target", "out", "__pycache__"}
THEOREM = r"^ *(?:abbrev |unfoldable )?(?:pub )?(?:(?:record|data) {0} |{0} (?:{{.}} )?: )"
ITEM = r"\b(?:fn|enum|struct|const|mod) {0}\b"
FIELD = r"^ *(?:pub )?{0}: "
PART = r"^def {0}\("
WORD = r"\b{0}\b"
DECLARES = {".antt": [THEOREM], ".rt": [ITEM, FIELD], ".py": [PART], ".c": [WORD], ".h": [WORD]}
ANY_NAME = r"([\w'-]+)"
NO_CODE = re.compile(r'/\*.*?\*/|^ *(?://|--).*?$|"(?:\\.|[^"\\\n])*"', re.DOTALL | re.MULTILINE)


@functools.cache
def files():
    found = []
    for folder, folders, names in os.walk(ROOT):
        folders[:] = [name for name in folders if name not in NOT_THE_TREE]
        found += [pathlib.Path(folder) / name for name in names]
    return found


@functools.cache
def paths():
    """Every file and folder, from the top."""
    return {str(part) for file in files() for part in [file.relative_to(ROOT), *file.relative_to(ROOT).parents]}


@functools.cache
def code(file):
    """A file's text without remarks and texts in quotes, in which any word may stand."""
    return NO_CODE.sub("", file.read_text(encoding="utf-8"))


def declares(file, name):
    return any(re.search(pattern.format(re.escape(name)), code(file), re.MULTILINE) for pattern in DECLARES.get(file.suffix, []))


def matches(pattern, file):
    for found in re.findall(pattern.format(ANY_NAME), code(file), re.MULTILINE):
        yield from filter(None, [found] if isinstance(found, str) else found)


@functools.cache
def declared():
    """Every declared name, and every name of a file or folder, with and without its ending."""
    of_code = {name for file in files() for pattern in DECLARES.get(file.suffix, []) for name in matches(pattern, file)}
    of_paths = {part for path in paths() for part in pathlib.Path(path).parts}
    return of_code | of_paths | {pathlib.Path(part).stem for part in of_paths}
