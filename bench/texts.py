#!/usr/bin/env python3
"""Times the built program on the reading of large texts, of each kind.

    bench/texts.py [--program crates/sqmod/out/sqmod] [--megabytes 20] [--times 3] [NAME..]

A text has one fault, at its end, so it is read as a whole and nothing is made of it: a byte that begins no token, so that only
tokens are made, or a bracket, so that the tree is made, too. For both it prints the seconds of the processor, those in the system
included, the least of so many runs; how many megabytes a second that is; and the greatest memory in bytes for each byte of the
text, which counts the text itself.
"""
import argparse
import subprocess
import sys
import tempfile
from pathlib import Path
from typing import NamedTuple

from language import MEASURE, ROOT

BAD_BYTE, BRACKET = "#", ")"


class Kind(NamedTuple):
    # The words of the command line before the file.
    words: list
    # What stands once at the start, what again and again with its number, and what stands between and behind these.
    start: str
    part: str
    between: str = ""
    end: str = ""


SCHEMA = """CREATE TABLE ORDERS{0} (
    ORDER_NO INTEGER NOT NULL PRIMARY KEY,
    CUSTOMER CHAR(20) NOT NULL,
    AMOUNT DECIMAL(12, 2) DEFAULT 0 CHECK (AMOUNT >= 0),
    STATE CHARACTER(8) DEFAULT 'OPEN',
    PLACED INTEGER REFERENCES DAYS (DAY_NO),
    CHECK (STATE IN ('OPEN', 'PAID', 'SENT') OR AMOUNT = 0),
    UNIQUE (CUSTOMER, PLACED)
)
CREATE VIEW OPEN_ORDERS{0} (NO, WHO, HOW_MUCH) AS
    SELECT O.ORDER_NO, O.CUSTOMER, O.AMOUNT FROM ORDERS{0} O, DAYS D
    WHERE O.PLACED = D.DAY_NO AND O.STATE = 'OPEN' AND NOT O.AMOUNT < 10.50
GRANT SELECT, INSERT, UPDATE (STATE) ON ORDERS{0} TO CLERK, PUBLIC
"""

MODULE = """DECLARE OPEN_ONES{0} CURSOR FOR
    SELECT ORDER_NO, CUSTOMER, AMOUNT * 2 + 1 FROM ORDERS
    WHERE STATE = 'OPEN' AND AMOUNT BETWEEN :LOW AND :HIGH
    ORDER BY 1, 2 DESC
PROCEDURE OPEN_THEM{0} (SQLCODE, :LOW DECIMAL(12, 2), :HIGH DECIMAL(12, 2));
    OPEN OPEN_ONES{0};
PROCEDURE NEXT_ONE{0} (SQLSTATE, :NO INTEGER, :WHO CHAR(20), :IND SMALLINT, :A DECIMAL(12, 2));
    FETCH OPEN_ONES{0} INTO :NO, :WHO INDICATOR :IND, :A;
PROCEDURE ADD_ORDER{0} (SQLCODE, :NO INTEGER, :WHO CHAR(20), :A DECIMAL(12, 2));
    INSERT INTO ORDERS (ORDER_NO, CUSTOMER, AMOUNT) VALUES (:NO, :WHO, :A);
PROCEDURE PAY{0} (SQLCODE, :NO INTEGER, :A DECIMAL(12, 2));
    UPDATE ORDERS SET STATE = 'PAID', AMOUNT = AMOUNT - :A WHERE ORDER_NO = :NO AND AMOUNT >= :A;
PROCEDURE LATE{0} (SQLCODE, :N INTEGER);
    SELECT COUNT(*) INTO :N FROM ORDERS O WHERE EXISTS
        (SELECT * FROM DAYS D WHERE D.DAY_NO = O.PLACED AND D.AGE > 30);
"""

SCRIPT = """CALL ORDERING.ADD_ORDER ({0:07}, 'CUSTOMER {0}', 97.50);
CALL ORDERING.PAY ({0}, -7);
CALL ORDERING.OPEN_THEM (1, 100);
CALL ORDERING.NEXT_ONE (*, *, *, *);
"""

KINDS = {
    "schemas: tables, views, grants": Kind(["check", "--schema"], "CREATE SCHEMA AUTHORIZATION OWNER\n", SCHEMA),
    "a module: cursors and procedures": Kind(["check", "--module"], "MODULE ORDERING LANGUAGE C AUTHORIZATION OWNER\n", MODULE),
    "a script: calls": Kind(["run", "--script"], "", SCRIPT),
    "a module of one condition, with names of one letter": Kind(
        ["check", "--module"],
        "MODULE M LANGUAGE C AUTHORIZATION U\nPROCEDURE P (SQLCODE); DELETE FROM T WHERE ",
        "A = B + 1 * (C - 1)", " AND ", ";\n"),
}


def text_of(kind, size):
    """A text of about so many bytes."""
    count = size // len(kind.part.format(0) + kind.between)
    return kind.start + kind.between.join(kind.part.format(i) for i in range(count)) + kind.end


def read(program, words, file):
    """Seconds of the processor and kilobytes of a run that refuses a file."""
    run = [sys.executable, "-S", "-c", MEASURE, "/dev/null", program, *words, file]
    seconds, system, kilobytes, status = subprocess.run(
        run, stdout=subprocess.PIPE, stderr=subprocess.DEVNULL, text=True, check=True).stdout.split()
    if status != "2":
        sys.exit(f"the program ends with {status}")
    return float(seconds) + float(system), int(kilobytes)


def print_kind(program, name, kind, size, times):
    """Prints the row of a kind: tokens alone, then tokens and tree."""
    text = text_of(kind, size)
    row = f"| {name} |"
    with tempfile.TemporaryDirectory() as folder:
        for fault in (BAD_BYTE, BRACKET):
            file = Path(folder, "text")
            file.write_text(text + fault)
            seconds, kilobytes = (min(figures) for figures in zip(*(read(program, kind.words, file) for _ in range(times))))
            row += f" {seconds:.2f} | {len(text) / seconds / 1e6:.0f} | {kilobytes * 1024 / len(text):.0f} |"
    print(row, flush=True)


def main():
    parser = argparse.ArgumentParser(description="Times the reading of large texts.")
    parser.add_argument("--program", default=str(ROOT / "crates/sqmod/out/sqmod"))
    parser.add_argument("--megabytes", type=int, default=20)
    parser.add_argument("--times", type=int, default=3, help="the least of so many runs is printed")
    parser.add_argument("names", nargs="*")
    options = parser.parse_args()
    program = str(Path(options.program).resolve())
    print("| Text | tokens, s | MB/s | bytes a byte | tokens and tree, s | MB/s | bytes a byte |\n" + "|---" * 7 + "|")
    for name, kind in KINDS.items():
        if not options.names or any(word in name for word in options.names):
            print_kind(program, name, kind, options.megabytes * 1_000_000, options.times)


if __name__ == "__main__":
    sys.exit(main())
