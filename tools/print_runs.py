#!/usr/bin/env python3
"""Prints runs of crates/sq_cases/data as equations on the definitions, for the files of crates/sq_run/proofs/Worked.

    print_runs.py texts                          the texts of the kit, for specs/KitTexts.antt
    print_runs.py runs DATA "WHAT THEY SHOW" NAME..   the runs of these names of a file of data
    print_runs.py check                          fails where one of these files is not what is printed of its runs today

Texts are printed byte for byte, a line at a time; a run is the equation that its texts come to its report, or to
its refusal.
"""

import os
import re
import sys

CRATES = os.path.join(os.path.dirname(os.path.abspath(__file__)), "..", "crates")
DATA = os.path.join(CRATES, "sq_cases", "data")
RUN = os.path.join(CRATES, "sq_run")
HEAD = re.compile(r"-- (.*)\. Printed by tools/print_runs\.py from sq_cases/data/(.*)\.\n")
KIT = (("schema", "schema.sql"), ("first_module", "module.sql"), ("second_module", "second-module.sql"),
       ("scrolling_module", "scrolling-module.sql"))
USUAL_ROW_NUMBERS = "1000000"
FAULTS = (("lexical", "sq_lex.specs.declared.fault.LexFaultKind"), ("schema_fault", "sq_meaning.specs.declared.refusal.SchemaFault"),
          ("module_fault", "sq_meaning.specs.declared.refusal.ModuleFault"), ("what", "sq_perform.specs.declared.refusal.RefusalName"))
KINDS = {"schema": "SchemaRefused", "module": "ModuleRefused", "script": "ScriptRefused"}


def repeated(line):
    """A line in which `{3:AB}` stands for three times AB."""
    return re.sub(r"\{(\d+):([^}]*)\}", lambda found: found.group(2) * int(found.group(1)), line)


def unescaped(line):
    return re.sub(r"\\(x[0-9a-f]{2}|.)", lambda m: {"r": "\r", "n": "\n", "t": "\t", "\\": "\\"}.get(m.group(1)) or chr(int(m.group(1)[1:], 16)), repeated(line))


class Run:
    def __init__(self, name):
        self.name, self.rows, self.schemas, self.modules, self.script, self.report, self.refused = name, USUAL_ROW_NUMBERS, [], [], "", "", None


def runs_of(path):
    """The runs of a file of data: see the lines at its head."""
    runs, part = [], None
    with open(path, newline="") as file:
        lines = file.read().split("\n")
    for line in lines:
        words = line.split(" ")
        if line[:1] in ("|", "."):
            part.append(unescaped(line[1:]) + ("\n" if line[0] == "|" else ""))
        elif words[0] == "run":
            runs.append(Run(words[1]))
        elif words[0] == "rows":
            runs[-1].rows = words[1]
        elif words[0] in ("schema", "module"):
            part = []
            (runs[-1].schemas if words[0] == "schema" else runs[-1].modules).append(part)
        elif words[0] in ("script", "report"):
            part = []
            setattr(runs[-1], words[0], part)
        elif words[0] == "refused":
            runs[-1].refused = words[1:]
    for run in runs:
        run.schemas, run.modules = ["".join(p) for p in run.schemas], ["".join(p) for p in run.modules]
        run.script, run.report = "".join(run.script), "".join(run.report)
    return runs


def quoted(text):
    """A line as codes; bytes that are no characters stand by their numbers."""
    escapes = {"\\": "\\\\", '"': '\\"', "\n": "\\n", "\t": "\\t", "\r": "\\r"}
    pieces = re.findall(r"[\t\n\r -~]+|[^\t\n\r -~]", text)
    return " ++ ".join('codes "%s"' % "".join(escapes.get(c, c) for c in piece) if piece.isascii() and piece >= "\t" and piece != "\x7f"
                       else "(%d ∷ [])" % ord(piece) for piece in pieces)


def text_term(text):
    lines = re.findall(r"[^\n]*\n|[^\n]+", text)
    return "\n    ++ ".join(quoted(line) for line in lines) if lines else "[]"


def defined(name, text):
    return "abbrev %s : Bytes\n%s =\n    %s\n" % (name, name, text_term(text))


def kit_texts():
    found = {}
    for name, file in KIT:
        with open(os.path.join(DATA, file)) as text:
            found[name] = text.read()
    return found


def printed_texts():
    texts = "\n".join(defined(name, text).replace("abbrev ", "abbrev pub ", 1) for name, text in kit_texts().items())
    return ("-- The texts of the kit: a schema and its modules. Printed by tools/print_runs.py.\n"
            "use Rattle.std.specs.Prelude.{◌++◌, codes}\nuse Rattle.sq_meaning.specs.Report.{Bytes}\n\n" + texts)


LEXICAL = {"BadByte", "OpenText", "LongName", "NumberThenLetter", "LongNumber", "LongText"}
GRAMMAR = {"Unexpected", "TooDeep", "EndOfText"}


def name_term(kind, name):
    if name in LEXICAL:
        return "what.Lexical lexical.%s" % name
    if name in GRAMMAR or kind == "script":
        return "what.%s" % name
    return "what.Schema (record { fault = schema_fault.%s })" % name if kind == "schema" else "what.Module module_fault.%s" % name


def answer_term(run):
    """What is wanted: a report, or a refusal's text, place and name."""
    if not run.refused:
        return "Ok (\n    %s)" % text_term(run.report)
    kind, text, place, name = run.refused
    line, column = place.split(":")
    number = 0 if kind == "script" else int(text) - 1
    return "Err (%s (record { text = %d; line = %s; column = %s; what = %s }))" % (KINDS[kind], number, line, column, name_term(kind, name))


def print_run(run, kit):
    used, defs = set(), []

    def named(kind, texts):
        names = []
        for place, text in enumerate(texts):
            shared = [name for name, same in kit.items() if same == text or same == text + "\n"]
            if shared:
                names.append(shared[0])
                used.add(shared[0])
            else:
                names.append("%s-%s-%d" % (run.name, kind, place))
                defs.append(defined(names[-1], text))
        return " ∷ ".join(names + ["[]"])

    schemas, modules = named("schema", run.schemas), named("module", run.modules)
    defs.append(defined(run.name + "-script", run.script))
    defs.append("%s : reported (answered (%s) (%s) %s-script %s) ≡ %s\nunfolding computed\n%s = refl\n"
                % (run.name, schemas, modules, run.name, run.rows, answer_term(run), run.name))
    return "-- ---- %s\n\n%s" % (run.name.replace("_", " "), "\n".join(defs)), used


def printed_runs(path, shows, names):
    runs = {run.name: run for run in runs_of(os.path.join(DATA, path))}
    kit, used, bodies = kit_texts(), set(), []
    for name in names:
        body, these = print_run(runs[name], kit)
        bodies.append(body)
        used |= these
    text = "\n".join(bodies)
    results = [word for word in ("Ok", "Err") if "≡ %s (" % word in text]
    lines = ["-- %s. Printed by tools/print_runs.py from sq_cases/data/%s." % (shows, path),
             "use Rattle.std.specs.Prelude.{◌≡◌, [], ◌∷◌, %scodes, %s, refl}" % ("◌++◌, " if " ++ " in text else "", ", ".join(results))]
    lines += ["use Rattle.%s.TheVariants as %s" % (module, alias) for alias, module in FAULTS if alias + "." in text]
    lines.append("use Rattle.sq_meaning.specs.Report.{Bytes}")
    kinds = [kind for kind in KINDS.values() if "Err (%s " % kind in text]
    if kinds:
        lines.append("use Rattle.sq_perform.specs.declared.refusal.RunFault.TheVariants.{%s}" % ", ".join(kinds))
    lines += ["use Rattle.sq_run.specs.Answer.{answered}", "use Rattle.sq_run.specs.Reported.{reported}"]
    if used:
        lines.append("use Rattle.sq_run.specs.KitTexts.{%s}" % ", ".join(name for name, _ in KIT if name in used))
    return "\n".join([*lines, "use Rattle.sq_run.proofs.Worked.Computed.{computed}\n", text])


def check():
    """Compares each printed file with what is printed of its runs today."""
    stale, count = [], 0
    for folder in (os.path.join(RUN, "specs"), os.path.join(RUN, "proofs", "Worked")):
        for file in sorted(os.listdir(folder)):
            with open(os.path.join(folder, file), newline="") as opened:
                text = opened.read()
            head = HEAD.match(text)
            names = [name.replace(" ", "_") for name in re.findall(r"^-- ---- (.*)$", text, re.M)]
            wanted = printed_runs(head[2], head[1], names) if head else printed_texts() if file == "KitTexts.antt" else text
            count += wanted is not text
            if wanted != text:
                stale.append(file)
    print("%d printed files of runs, %d differ %s" % (count, len(stale), " ".join(stale)))
    if stale or not count:
        raise SystemExit(1)


def main():
    words = sys.argv[1:]
    if words == ["texts"]:
        print(printed_texts(), end="")
    elif words == ["check"]:
        check()
    elif words[:1] == ["runs"] and len(words) > 3:
        print(printed_runs(words[1], words[2], words[3:]), end="")
    else:
        raise SystemExit(__doc__)


if __name__ == "__main__":
    main()
