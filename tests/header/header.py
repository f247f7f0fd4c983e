"""The header's constants held against paper.txt and against the library, for tests/header/run and tests/header/must_fail."""
import pathlib
import re
import subprocess
import tempfile

HERE = pathlib.Path(__file__).resolve().parent
ROOT = HERE.parents[1]
HEADER = ROOT / "include" / "basintilt.h"
ENUM = re.compile(r"\benum\b[^{;]*\{([^}]*)\}")
DEFINED = re.compile(r"^#define (\w+)[ \t]+\S", re.MULTILINE)
QUOTES_01 = "docs/PROMISES.md"
BEHAVIOUR = "tests/header/behaviour.c"


def constants(header):
    """Every name to which the header gives a number, in the header's order: enumerators, and macros that have a text and no parameters."""
    code = re.sub(r"/\*.*?\*/", " ", header, flags=re.DOTALL)
    named = [(m.start(), part.split("=")[0].strip()) for m in ENUM.finditer(code) for part in m[1].split(",")]
    named += [(m.start(), m[1]) for m in DEFINED.finditer(code)]
    return [name for _, name in sorted(named, key=lambda pair: pair[0]) if name]


def number(text):
    """A number as 01 writes it: 80h, 180,000, −32,768."""
    return int(text[:-1], 16) if text.endswith("h") else int(text.replace(",", "").replace("−", "-"))


def rows():
    lines = (HERE / "paper.txt").read_text(encoding="utf-8").splitlines()
    return [tuple(line.split(" | ", 3)) for line in lines if line and not line.startswith("#")]


def table_faults(names):
    """Where the table and the header name different constants, or a row's words are not its source's, or do not say its number."""
    named = [row[0] for row in rows()]
    yield from (f"{name} has no row in paper.txt" for name in names if name not in named)
    yield from (f"{name} has a row in paper.txt, and is no constant of the header" for name in named if name not in names)
    yield from (f"{name} is named twice" for listed in (names, named) for name in sorted(set(listed)) if listed.count(name) > 1)
    for name, said, source, words in rows():
        text = (ROOT / (QUOTES_01 if source == "01" else source)).read_text(encoding="utf-8")
        if words not in text:
            yield f"{name}: “{words}” does not stand in {QUOTES_01 if source == '01' else source}"
        if not re.search(rf"(?<![\w,]){re.escape(said)}(?!\w|,\d)", words):
            yield f"{name}: {said} does not stand in “{words}”"


def paper_faults(folder):
    """What the compiler says of the numbers of paper.txt, asserted over the header in a folder."""
    lines = [f'_Static_assert({name} == {number(said)}LL, "{name} is {said}");' for name, said, _, _ in rows()]
    text = "\n".join(['#include "basintilt.h"', *lines, ""])
    command = ["clang", "-fsyntax-only", "-ferror-limit=0", f"-I{folder}", "-xc", "-"]
    run = subprocess.run(command, input=text, capture_output=True, text=True, check=False)
    return [line for line in run.stderr.splitlines() if "error:" in line]


def library_says(folder):
    """Whether behaviour.c, built with the header in a folder, finds the library as the header says; and what it or the compiler prints."""
    (ROOT / "target").mkdir(exist_ok=True)
    with tempfile.TemporaryDirectory(dir=ROOT / "target") as place:
        program = pathlib.Path("target") / pathlib.Path(place).name / "behaviour"
        command = [ROOT / "tests" / "link", program, BEHAVIOUR, f"-I{folder}", "-O0", "-Werror"]
        built = subprocess.run(command, capture_output=True, text=True, check=False)
        if built.returncode:
            return False, built.stderr
        run = subprocess.run([ROOT / program], capture_output=True, text=True, check=False)
    return run.returncode == 0, run.stdout


def unused(names):
    used = set(re.findall(r"\w+", (ROOT / BEHAVIOUR).read_text(encoding="utf-8")))
    return [name for name in names if name not in used]
