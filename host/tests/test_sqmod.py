"""Tests of host/sqmod.py over the library that SQMOD_LIBRARY names."""

import sys
import unittest
from decimal import Decimal
from pathlib import Path

sys.path.insert(0, str(Path(__file__).resolve().parent.parent))
import sqmod  # noqa: E402
from sqmod import Refused, Reply, Session  # noqa: E402

SCHEMA = """
CREATE SCHEMA AUTHORIZATION U
CREATE TABLE D (A INTEGER, B NUMERIC(5,2), C VARCHAR(10))
CREATE TABLE E (K INTEGER NOT NULL PRIMARY KEY)
"""
MODULE = """
MODULE M LANGUAGE C AUTHORIZATION U
DECLARE X CURSOR FOR SELECT A, B, C FROM D
PROCEDURE ADDROW (SQLSTATE, :A INTEGER, :IA SMALLINT, :B NUMERIC(5,2), :IB SMALLINT, :C VARCHAR(10), :IC SMALLINT);
  INSERT INTO D VALUES (:A :IA, :B :IB, :C :IC);
PROCEDURE OPX (SQLSTATE); OPEN X;
PROCEDURE NEXTROW (SQLSTATE, :A INTEGER, :IA SMALLINT, :B NUMERIC(5,2), :IB SMALLINT, :C VARCHAR(10), :IC SMALLINT);
  FETCH X INTO :A :IA, :B :IB, :C :IC;
PROCEDURE BARE (SQLSTATE, :A INTEGER, :B NUMERIC(5,2), :C VARCHAR(10)); FETCH X INTO :A, :B, :C;
PROCEDURE ADDKEY (SQLSTATE, :K INTEGER); INSERT INTO E VALUES (:K);
PROCEDURE FAULTY (SQLSTATE); DELETE FROM E WHERE PRIZE = 1;
PROCEDURE BACK (SQLCODE); ROLLBACK;
"""


class Calls(unittest.TestCase):
    def setUp(self):
        self.session = Session([SCHEMA], [MODULE])
        self.addCleanup(self.session.close)

    def test_values_of_each_kind_go_in_and_come_out(self):
        m = self.session.M
        self.assertEqual(m.ADDROW(1, 0, Decimal("-12.5"), 0, "IT'S", 0), Reply("00000", 0, {}))
        m.OPX()
        wanted = {"A": 1, "IA": 0, "B": Decimal("-12.50"), "IB": 0, "C": "IT'S", "IC": 0}
        reply = m.NEXTROW(None, None, None, None, None, None)
        self.assertEqual(reply, Reply("00000", 0, wanted))
        self.assertEqual([type(it) for it in reply.outputs.values()], [int, int, Decimal, int, str, int])
        self.assertEqual(str(reply.outputs["B"]), "-12.50")
        self.assertEqual(m.NEXTROW(*[None] * 6), Reply("02000", 100, {}))

    def test_a_null_of_each_kind_is_none_beside_its_indicator(self):
        m = self.session.M
        m.ADDROW(0, -1, 0, -1, "", -1)
        m.OPX()
        wanted = {"A": None, "IA": -1, "B": None, "IB": -1, "C": None, "IC": -1}
        self.assertEqual(m.NEXTROW(*[None] * 6), Reply("00000", 0, wanted))

    def test_a_null_without_an_indicator_is_a_status(self):
        m = self.session.M
        m.ADDROW(0, -1, 0, -1, "", -1)
        m.OPX()
        self.assertEqual(m.BARE(None, None, None), Reply("22002", -2202, {}))

    def test_statuses_are_replies(self):
        m = self.session.M
        self.assertEqual(m.ADDKEY(1), Reply("00000", 0, {}))
        self.assertEqual(m.ADDKEY(1), Reply("23000", -2300, {}))
        self.assertEqual(m.FAULTY(), Reply("42000", -4200, {}))
        self.assertEqual(m.ADDKEY(2), Reply("00000", 0, {}))

    def test_a_table_shows_its_rows_as_they_are_now(self):
        m = self.session.M
        m.ADDROW(1, 0, 2, 0, "X", 0)
        m.ADDROW(0, -1, Decimal("0.05"), 0, "", -1)
        self.assertEqual(self.session.table("U", "D"), [(1, Decimal("2.00"), "X"), (None, Decimal("0.05"), None)])
        m.BACK()
        self.assertEqual(self.session.table("u", "d"), [])
        with self.assertRaises(KeyError):
            self.session.table("U", "NONE")

    def test_why_names_the_fault(self):
        self.assertEqual(self.session.why("M", "FAULTY"), "UnknownColumn PRIZE")
        self.assertIsNone(self.session.why("M", "OPX"))

    def test_cause_says_why_the_last_call_failed(self):
        with self.assertRaisesRegex(sqmod.Error, "nothing was called"):
            self.session.cause()
        self.session.M.ADDKEY(7)
        self.assertIsNone(self.session.cause())
        self.session.M.ADDKEY(7)
        self.assertRegex(self.session.cause(), "^PRIMARY KEY .*: row 1 has .* = 7 already$")
        self.session.M.FAULTY()
        self.assertEqual(self.session.cause(), "the statement has the fault UnknownColumn of PRIZE")

    def test_names_are_taken_in_any_case(self):
        self.assertEqual(self.session.m.addkey(7), Reply("00000", 0, {}))
        self.assertEqual(self.session.call("M", "ADDKEY", 7).sqlstate, "23000")

    def test_values_that_cannot_be_handed_in_are_named(self):
        m = self.session.M
        for values, error, says in [
            ((2**31,), ValueError, "value 1, 2147483648, does not fit"),
            ((10**18,), ValueError, "value 1"),
            (("X",), ValueError, "value 1, 'X', does not fit"),
            (("Ä",), ValueError, "value 1"),
            ((), ValueError, "0 values"),
            ((1, 2), ValueError, "2 values"),
            ((1.5,), TypeError, "and not float"),
            ((True,), TypeError, "and not bool"),
            ((Decimal("NaN"),), ValueError, "value 1"),
        ]:
            with self.subTest(values), self.assertRaisesRegex(error, says):
                m.ADDKEY(*values)
        self.assertEqual(m.ADDKEY(1), Reply("00000", 0, {}))

    def test_an_unknown_procedure_is_no_attribute(self):
        with self.assertRaisesRegex(AttributeError, "M.NONE is no procedure"):
            self.session.M.NONE()


class Texts(unittest.TestCase):
    def test_a_refused_text_says_which_where_and_why(self):
        with self.assertRaisesRegex(Refused, "^schema 2:1:31: NullableKey$"):
            Session([SCHEMA, "CREATE SCHEMA AUTHORIZATION V CREATE TABLE D (A INTEGER UNIQUE)"])
        with self.assertRaisesRegex(Refused, "^module 1:1:1: EndOfText$"):
            Session([SCHEMA], [""])

    def test_rows_out_of_bounds(self):
        for rows in (0, 1_000_000_001):
            with self.subTest(rows), self.assertRaisesRegex(ValueError, "rows"):
                Session(rows=rows)

    def test_sessions_know_nothing_of_each_other(self):
        with Session([SCHEMA], [MODULE]) as one, Session([SCHEMA], [MODULE], rows=1) as other:
            self.assertEqual(one.M.ADDKEY(1).sqlstate, "00000")
            self.assertEqual(other.M.ADDKEY(1).sqlstate, "00000")
            self.assertEqual(other.M.ADDKEY(2).sqlstate, "S1L00")

    def test_the_version_is_that_of_the_repository(self):
        wanted = (Path(__file__).resolve().parents[2] / "VERSION").read_text().strip()
        self.assertEqual(sqmod.version(), wanted)


if __name__ == "__main__":
    unittest.main()
