#!/usr/bin/env python3
"""Steps through the pages that `trace --html` writes of examples/tour, in headless Chromium, and compares what they show with reports.

try_page.py PROGRAM [PICTURE]: for each example the page's list of calls is the report's lines of them; and at each step, which is reached by
the arrow keys alone, the page shows the lines of the report, the notes of `trace`, and of each table the rows, its new, changed and
gone ones marked, that `run` shows where the script ends there with a TABLE for each. A picture of a page goes to the file PICTURE. Without Chromium
it says SKIPPED.
"""

import html
import json
import re
import shutil
import subprocess
import sys
import tempfile
from pathlib import Path

ROOT = Path(__file__).resolve().parent.parent
TOUR = ROOT / "examples/tour"
# Steps by the arrow keys and notes what is shown: the report, the notes, and the tables with the marks of their rows and cells.
STEPS = """
<script>
{
const text = id => document.getElementById(id).textContent;
const marked = cell => [cell.textContent, cell.className];
const seen = () => ({
  report: text('report'), notes: text('notes'), cursors: text('cursors'),
  current: [...document.querySelectorAll('#calls button')].findIndex(button => button.getAttribute('aria-current') === 'true'),
  tables: [...document.querySelectorAll('table')].map(table => ({
    name: table.caption.textContent,
    columns: [...table.querySelectorAll('th')].map(cell => cell.textContent),
    rows: [...table.querySelectorAll('tr')].slice(1).map(row => [row.className, [...row.cells].map(marked)]),
  })),
});
const press = key => document.dispatchEvent(new KeyboardEvent('keydown', { key, cancelable: true }));
const calls = [...document.querySelectorAll('#calls button')].map(button => button.textContent);
const steps = [seen()];
for (let step = 1; step < calls.length; step++) { press('ArrowDown'); steps.push(seen()); }
press('ArrowDown');
const last = seen().current;
press('ArrowUp');
const back = seen().current;
document.body.textContent = 'SE' + 'EN' + JSON.stringify({ calls, steps, last, back }) + 'SE' + 'EN';
}
</script>
"""


def shown_by(chromium, page, room, *words):
    """What Chromium makes of a page."""
    path = Path(room, "page.html")
    path.write_text(page)
    command = [chromium, "--headless", "--no-sandbox", "--disable-gpu", f"--user-data-dir={room}/profile", *words, path.as_uri()]
    done = subprocess.run(command, capture_output=True, text=True, timeout=120)
    return done.stdout


def words_of(example, script):
    modules = sorted(path for path in example.glob("*.sql") if path.name != "schema.sql")
    words = ["--schema", example / "schema.sql", "--script", script]
    for module in modules:
        words += ["--module", module]
    rows = example / "rows.txt"
    return [*words, *(["--rows", rows.read_text().strip()] if rows.exists() else [])]


def output(program, command, *words):
    return subprocess.run([program, command, *words], capture_output=True, text=True, timeout=60, check=True).stdout


def items_of(text):
    """The lines of a report or a trace, item by item: rows and notes begin with a blank."""
    items = []
    for line in text.splitlines():
        if not line.startswith(" "):
            items.append([])
        items[-1].append(line)
    return items


def statements_of(script):
    """The items of a script; in those of the tour no semicolon stands in a text or a comment."""
    lines = [line for line in script.read_text().splitlines() if not line.startswith("--")]
    return [item.strip() + ";" for item in "\n".join(lines).split(";") if item.strip()]


def table_rows(program, example, room, items, names):
    """The rows of each table, as `run` shows them behind these items."""
    script = Path(room, "script")
    script.write_text("\n".join([*items, *(f"TABLE {name};" for name in names)]))
    shown = items_of(output(program, "run", *words_of(example, script)))[len(items):]
    return [[line[2:] for line in item[1:]] for item in shown]


def unmarked(rows):
    """The rows of a table of the page that are there, without their numbers, as a report writes them."""
    return [" ".join(cell for cell, _ in cells[1:]) for mark, cells in rows if mark != "gone"]


def marks_are_right(before, rows):
    """Whether rows are marked as new, changed and gone by what stood there a step before, by their numbers."""
    old = {cells[0][0]: [cell for cell, _ in cells] for mark, cells in before if mark != "gone"}
    for mark, cells in rows:
        values = [cell for cell, _ in cells]
        was = old.pop(values[0], None)
        wanted = "new" if was is None else "gone" if mark == "gone" else ""
        changed = ["changed" if was and one != other else "" for one, other in zip(was or values, values)][1:]
        if mark != wanted or [kind for _, kind in cells][1:] != changed:
            return False
    return not old


def faults_of(program, chromium, example):
    """What a page shows otherwise than the report and the trace say."""
    with tempfile.TemporaryDirectory() as room:
        script = example / "script.txt"
        page = Path(room, "run.html")
        notes = items_of(output(program, "trace", *words_of(example, script), "--html", page))
        report = items_of(output(program, "run", *words_of(example, script)))
        dumped = html.unescape(shown_by(chromium, page.read_text().replace("</body>", STEPS + "</body>"), room, "--dump-dom"))
        found = re.search("SEEN(.*)SEEN", dumped, re.S)
        if not found:
            return ["nothing is shown"]
        seen = json.loads(found[1])
        faults = [] if seen["calls"] == [item[0] for item in report] else ["the list of calls"]
        if (seen["last"], seen["back"]) != (len(report) - 1, max(len(report) - 2, 0)):
            faults.append("the arrow keys at the end")
        items = statements_of(script)
        names = [table["name"] for table in seen["steps"][0]["tables"]]
        before = [[] for _ in names]
        for place, step in enumerate(seen["steps"]):
            rows = [table["rows"] for table in step["tables"]]
            wanted = table_rows(program, example, room, items[: place + 1], names)
            right = {
                "the step": step["current"] == place,
                "the report": step["report"].split("\n") == report[place],
                "the notes": [line for line in step["notes"].split("\n") if line]
                == [line[5:] for line in notes[place] if line.startswith("  --")],
                "the rows": [unmarked(table) for table in rows] == wanted,
                "the marks": all(map(marks_are_right, before, rows)),
            }
            faults += [f"{what} at {place + 1}" for what, is_right in right.items() if not is_right]
            before = rows
    return faults


def main():
    program = str(Path(sys.argv[1]).resolve())
    chromium = shutil.which("chromium") or shutil.which("chromium-browser")
    if not chromium:
        print("SKIPPED: pages in a browser: there is no chromium")
        return
    faults = {example.name: faults_of(program, chromium, example) for example in sorted(TOUR.iterdir()) if example.is_dir()}
    wrong = {name: what for name, what in faults.items() if what}
    print(f"pages: {len(faults)} examples stepped through in Chromium, {len(wrong)} differ")
    if len(sys.argv) > 2:
        with tempfile.TemporaryDirectory() as room:
            page = Path(room, "run.html")
            example = TOUR / "06-what-cursors-see"
            output(program, "trace", *words_of(example, example / "script.txt"), "--html", page)
            text = page.read_text().replace("show(0);\n</script>", "show(5);\n</script>")
            shown_by(chromium, text, room, f"--screenshot={sys.argv[2]}", "--window-size=1000,560", "--hide-scrollbars")
    sys.exit("\n".join(f"{name}: {', '.join(what)}" for name, what in wrong.items()) if wrong else 0)


if __name__ == "__main__":
    main()
