"""Cases: the texts of a run and the report that is wanted of it. They are read from folders (docs/SUITES.md), and from the files of runs in
crates/sq_cases/data.
"""

import re
import sys
from pathlib import Path
from typing import NamedTuple

ROOT = Path(__file__).resolve().parents[2]
DATA = ROOT / "crates/sq_cases/data"
sys.path.insert(0, str(ROOT / "tools"))

from print_runs import runs_of  # noqa: E402


class Case(NamedTuple):
    """`wanted` is None where a refusal is; `faults` has the binding faults that are known, by the number of their call."""

    name: str
    schemas: list
    modules: list
    script: bytes
    wanted: str | None
    faults: dict

    @property
    def size(self):
        return sum(map(len, [*self.schemas, *self.modules, self.script]))


def data_cases(path):
    """The runs of a file of data whose texts are taken."""
    lines = path.read_bytes().decode("latin-1")
    parts = re.split(r"^run ", lines, flags=re.M)[1:]
    kind = path.stem.removeprefix("runs-")
    found = []
    for run, part in zip(runs_of(path), parts, strict=True):
        if run.refused is None:
            faults = {int(number): fault for number, fault in re.findall(r"^call (\d+) fault (\w+)", part, re.M)}
            texts = [[text.encode("latin-1") for text in texts] for texts in (run.schemas, run.modules, [run.script])]
            found.append(Case(f"{kind}/{part.splitlines()[0]}", texts[0], texts[1], texts[2][0], run.report, faults))
    return found


def all_data_cases():
    return [case for path in sorted(DATA.glob("runs-*.txt")) for case in data_cases(path)]


def texts_in(folder):
    """The schema and the module texts of a folder, each kind by the names of their files."""
    files = sorted(path for path in folder.iterdir() if path.suffix.lower() == ".sql")
    schemas = [path for path in files if path.name.startswith("schema")]
    return [path.read_bytes() for path in schemas], [path.read_bytes() for path in files if path not in schemas]


def setups_of(case, top):
    """The folders that a case shares with others below a folder, the outer ones first."""
    below = [top, *(top / path for path in reversed(case.relative_to(top).parents) if path != Path())]
    return [folder / "setup" for folder in below if (folder / "setup").is_dir()]


def folder_case(folder, top):
    """A case of a folder. One that shares a setup has no wanted report here, since the setup's calls have none."""
    setups = setups_of(folder, top)
    schemas, modules, script = [], [], b""
    for part in [*setups, folder]:
        own_schemas, own_modules = texts_in(part)
        schemas += own_schemas
        modules += own_modules
        script += (part / "script.txt").read_bytes() if (part / "script.txt").exists() else b""
    report = folder / "report.txt"
    wanted = report.read_bytes().decode("latin-1") if report.exists() and not setups else None
    return Case(str(shown(folder)), schemas, modules, script, wanted, {})


def shown(case):
    """A case's name: its path below the folder where the command runs, if it is below it."""
    here = Path.cwd()
    return case.relative_to(here) if case.is_relative_to(here) else case


def cases_below(top):
    return sorted(path.parent for path in top.rglob("script.txt") if path.parent.name != "setup")


def folder_cases(folders):
    tops = [Path(folder).resolve() for folder in folders]
    return [folder_case(case, top) for top in tops for case in cases_below(top)]
