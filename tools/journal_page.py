"""A journal as one page for a browser: what is in force, what follows the run, drawings of the zeros and the table of the run."""
import html

import journal_drawing
import journal_lines
from journal_lines import GROUPS, LEGEND, MARK, SETTINGS

ZEROS = {"X": ("6013:0", "6012:0"), "Y": ("6023:0", "6022:0")}
STYLE = """
body { font: 16px/1.45 sans-serif; color: #22272c; background: #fff; margin: 2em; }
h1 { font-size: 1.5em; overflow-wrap: anywhere; } h2 { font-size: 1.15em; margin-top: 2em; }
table { border-collapse: collapse; font-size: .9em; font-variant-numeric: tabular-nums; }
th, td { padding: .15em .5em; border-bottom: 1px solid #d5d9dd; text-align: right; }
td { white-space: nowrap; }
thead { position: sticky; top: 0; } th { background: #eef1f4; vertical-align: bottom; }
th.group { text-align: center; border-left: 2px solid #fff; } th small { display: block; font-weight: normal; }
td.word, th.word { text-align: left; }
td.brought { font-weight: bold; background: #fff0b8; }
.follows { border-left: .4em solid #4a5159; padding: .2em 1em; }
.spoiled { border-color: #b00020; background: #fdecee; }
@media print { body { font-size: 9px; margin: 0; } thead { position: static; } svg, tr { break-inside: avoid; } @page { size: landscape; } }
"""


def element(name, inside, kind=""):
    opened = f'{name} class="{kind}"' if kind else name
    return f"<{opened}>{inside}</{name}>"


def cell(column, words):
    kind = "word" if column == "kind" else "brought" if words.endswith(MARK) else ""
    return element("td", html.escape(words), kind)


def heads(columns):
    """Two lines: the groups of settings, and each column's name with its pair."""
    groups = "".join(f'<th class="group" colspan="{len(group)}">{html.escape(title)}</th>' for title, group in GROUPS.items())
    plain = [element("th", column, "word" if column == "kind" else "") for column in columns if column not in SETTINGS]
    named = [element("th", f"{html.escape(name)}<small>{pair}</small>") for pair, (name, _) in SETTINGS.items()]
    return element("thead", element("tr", f'<th colspan="{len(plain)}"></th>{groups}') + element("tr", "".join(plain + named)))


def table(name, head, rows):
    return f'<table id="{name}">\n{head}\n<tbody>\n' + "\n".join(element("tr", row) for row in rows) + "\n</tbody>\n</table>"


def run_table(journal):
    columns = journal_lines.columns(journal)
    return table("run", heads(columns), ("".join(map(cell, columns, row)) for row in zip(*columns.values())))


def in_force(journal):
    kinds = ("word", "word", "", "word")
    rows = [(pair, SETTINGS[pair][1], value, journal_lines.brought_by(origin)) for pair, (value, origin) in journal.origins.items()]
    head = "".join(map(element, ["th"] * len(kinds), ("setting", "what it is", "value", "brought by"), kinds))
    cells = [[element("td", html.escape(word), kind) for word, kind in zip(row, kinds)] for row in rows]
    return table("in-force", element("thead", element("tr", head)), map("".join, cells))


def follows(journal):
    sentences, stretches = journal_lines.what_follows(journal)
    listed = element("ul", "".join(element("li", html.escape(stretch)) for stretch in stretches)) if stretches else ""
    return element("div", element("p", html.escape(" ".join(sentences))) + listed, "follows spoiled" if journal.is_spoiled() else "follows")


def drawings(journal):
    run = journal.run()
    blocks = [f"{journal_lines.channel(block.by)}, {block.kind}" for block in run]
    for axis, pairs in ZEROS.items():
        curves = [(f"{SETTINGS[pair][1]} ({pair})", [int(value) for value in journal.values[pair][:len(run)]]) for pair in pairs]
        yield element("div", journal_drawing.drawing(axis, curves, blocks))


def of_the_run(journal):
    """Drawings and table, or that there are none."""
    if not journal.run():
        return [element("p", "The run has no block, so there is nothing to draw: every setting has its factory value.")]
    remark = ("A dot is a block that brought the value. A step is the resolution (6000:0) times 0.001 degrees; "
              "offsets keep their numbers where it changes.")
    return [element("h2", "The zeros over the saves"), element("p", remark), *drawings(journal),
            element("h2", "Every block of the run"), element("p", "<br>".join(map(html.escape, LEGEND))), run_table(journal)]


def page(journal):
    title = html.escape(f"Journal {journal.name}")
    top = f'<meta charset="utf-8"><title>{title}</title>\n<style>{STYLE}{journal_drawing.STYLE}</style>'
    parts = [element("h1", title), element("p", journal_lines.summary(journal)), element("h2", "Behind the run"), follows(journal),
             element("h2", "In force after power-on, and who brought it"), in_force(journal), *of_the_run(journal)]
    return "\n".join(["<!DOCTYPE html>", '<html lang="en">', element("head", top), "<body>", *parts, "</body>", "</html>", ""])
