#!/usr/bin/env python3
"""Tries the page for browsers: every stored run through its module in Node, byte for byte; and in headless Chromium the tour, step by step.

try_page_runs.py [PAGE]: the built page; else it is built now, into crates/sq_page_c/out/page. Where Node, Chromium, or what it takes to
build the page is missing, a line with the word SKIPPED says so.
"""

import json
import shutil
import subprocess
import sys
from pathlib import Path

import browser
from print_runs import runs_of

ROOT = Path(__file__).resolve().parent.parent
BUILT = ROOT / "crates/sq_page_c/out/page"
TOUR = ROOT / "examples/tour"
STEPS = ROOT / "tools/page_steps.txt"
DATA = 'id=\'data\'>\n'


# ---- in Node

def given(run):
    return {"schemas": run.schemas, "modules": run.modules, "script": run.script, "rows": int(run.rows), "steps": True}


def wanted(run):
    """What the page is to answer: the report, or the line of the refusal."""
    if run.refused is None:
        return "done", run.report
    kind, number, place, fault = run.refused
    return "refused", f"{kind} {number}:{place}: {fault}"


def reported(page):
    """The report in a page that steps through a run: its lines but for the notes."""
    items = json.loads(page.split(DATA)[1].split("</script>")[0])["items"]
    lines = [line for item in items for line in item["lines"].split("\n")[:-1]]
    return "".join(line + "\n" for line in lines if not line.startswith("  --"))


def is_as_wanted(run, found):
    """Whether a run and its steps come to what is wanted."""
    answer, text = wanted(run)
    if (found["answer"], found["text"]) != (answer, text) or found["steps"]["answer"] != answer:
        return False
    steps = found["steps"]["text"]
    return steps == text if answer == "refused" else reported(steps) == text


def try_runs(page):
    """The names of the runs that come to something else."""
    runs = [run for path in sorted((ROOT / "crates/sq_cases/data").glob("runs-*.txt")) for run in runs_of(path)]
    done = subprocess.run(["node", ROOT / "tools/page_runs.js", page], input=json.dumps([given(run) for run in runs]),
                          capture_output=True, text=True, timeout=600)
    if done.returncode:
        sys.exit("try_page_runs: Node says:\n" + done.stderr[-3000:])
    found = json.loads(done.stdout)
    if found["imports"] or found["memory"]:
        sys.exit("try_page_runs: the module has imports, or gave memory that it does not have")
    wrong = [run.name for run, it in zip(runs, found["answers"], strict=True) if not is_as_wanted(run, it)]
    print(f"The page's module in Node: {len(runs)} runs and their steps, {len(wrong)} differ")
    return wrong


# ---- in Chromium

# What the page shows now: the report, and the view of the steps.
SHOWN = """(() => {
  const view = document.getElementById('steps').contentDocument;
  const text = id => view.getElementById(id).textContent;
  return { report: text('report'), notes: text('notes'), cursors: text('cursors'), changed: [...view.querySelectorAll('.changed, .new td, .gone td')]
    .filter(it => it.tagName === 'TD').map(it => it.textContent).join(' '), calls: view.querySelectorAll('#calls button').length };
})()"""


def steps_shown(shown):
    """What is shown of each step of the run in the boxes, from the first to the last, by the button that steps forward."""
    shown.value("document.getElementById('steps').contentDocument.wasThere = true")
    shown.click("step")
    shown.wait("!document.getElementById('stepping').hidden && !document.getElementById('steps').contentDocument.wasThere")
    shown.wait("document.getElementById('steps').contentDocument.querySelector('#calls button')")
    steps = [shown.value(SHOWN)]
    for number in range(1, steps[0]["calls"]):
        if number % 2:
            shown.click("forward")
        else:
            shown.press("ArrowRight")
        steps.append(shown.value(SHOWN))
    return steps


def try_step_of_tour(shown, number, folder):
    """What differs in the browser from the report of a step of the tour; nothing where it is the same."""
    report = (folder / "report.txt").read_text()
    shown.value(f"(() => {{ const tour = document.getElementById('tour'); tour.value = '{number}'; tour.onchange({{ target: tour }}); }})()")
    shown.click("run")
    shown.wait("document.getElementById('note').textContent")
    if shown.value("document.getElementById('report').textContent") != report:
        return "its report"
    steps = steps_shown(shown)
    if "".join(step["report"] + "\n" for step in steps) != report:
        return "the report in its steps"
    shown.click("back")
    if len(steps) > 1 and shown.value(SHOWN) != steps[-2]:
        return "its last step but one"
    return None


def stated(steps):
    """Steps as tools/page_steps.txt has them: a line of the report, and below it what is marked and where cursors stand."""
    lines = []
    for step in steps:
        lines.append(step["report"].split("\n")[0])
        lines += [f"  {kind}: {line}" for kind in ("changed", "cursors") for line in step[kind].split("\n") if line]
    return "".join(line + "\n" for line in lines)


def try_browser(page, program):
    """What differs in the browser."""
    folders = sorted(TOUR.iterdir())
    wrong = []
    with browser.opened(program, page.resolve().as_uri()) as shown:
        shown.wait("document.getElementById('script').value")
        for number, folder in enumerate(folders):
            fault = try_step_of_tour(shown, number, folder)
            wrong += [f"{folder.name}: {fault}"] if fault else []
            if folder.name == "06-what-cursors-see" and stated(steps_shown(shown)) != STEPS.read_text():
                wrong.append(f"{folder.name}: what is marked, or where its cursors stand")
        wrong += try_address(shown) + try_refusal(shown) + try_sending(shown)
    print(f"The page in Chromium: {len(folders)} steps of the tour, its address, a refusal, and sending, {len(wrong)} differ")
    return wrong


def try_address(shown):
    """Whether the page with its address opened anew has the texts that it had."""
    had = shown.value("JSON.stringify(texts())")
    shown.load(shown.value("location.href"))
    shown.wait("document.getElementById('script').value")
    return [] if shown.value("JSON.stringify(texts())") == had else ["the texts of an address"]


def try_refusal(shown):
    """Whether a refusal is shown, at its box."""
    shown.value("document.getElementById('script').value = 'CALL M.P\\n(;'")
    shown.click("run")
    shown.wait("document.getElementById('note').textContent === 'refused'")
    found = shown.value("[document.getElementById('report').textContent, document.getElementById('script').selectionStart]")
    return [] if found == ["script 1:2:2: Unexpected", 10] else [f"a refusal: {found}"]


# Tries to send something, from the page and from the view of the steps: what forbids it.
SENDING = """Promise.all([window, document.getElementById('steps').contentWindow].map(it => new Promise(settled => {
  it.document.addEventListener('securitypolicyviolation', event => settled(event.effectiveDirective));
  it.fetch('http://127.0.0.1:9/').then(() => settled('sent'), () => setTimeout(() => settled('not forbidden'), 1000));
})))"""


def try_sending(shown):
    """Whether the page may send nothing."""
    found = shown.value(SENDING)
    return [] if found == ["connect-src", "connect-src"] else [f"what forbids to send: {found}"]


def main():
    if len(sys.argv) > 1:
        page = Path(sys.argv[1])
    else:
        built = subprocess.run([sys.executable, ROOT / "tools/build_page.py", BUILT], capture_output=True, text=True)
        print(built.stdout + built.stderr, end="")
        if built.returncode or "SKIPPED" in built.stdout:
            sys.exit(built.returncode)
        page = BUILT / "index.html"
    wrong = []
    if shutil.which("node"):
        wrong += try_runs(page)
    else:
        print("SKIPPED: the page's module was not run, for want of Node")
    program = browser.program()
    if program:
        wrong += try_browser(page, program)
    else:
        print("SKIPPED: the page was not opened, for want of Chromium")
    sys.exit("these differ: " + "; ".join(wrong) if wrong else 0)


if __name__ == "__main__":
    main()
