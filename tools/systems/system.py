"""What a system has to do for a trial. Each file beside this one that names a system has a class below `System`."""

from typing import NamedTuple

from trees import Grant, Table
from writing import Writer


class Refused(Exception):
    """A statement that the system refused, with its SQLSTATE."""

    def __init__(self, state, message):
        super().__init__(state, message)
        self.state, self.message = state, " ".join(message.split())


class Result(NamedTuple):
    """The rows of a query: numbers as `Decimal`, texts and None. `kinds` says of each column `number`, `text` or None, if one can't know."""

    kinds: list
    rows: list


class System:
    """`has_users`: a statement may be performed as a user, with his privileges. `has_cursors`: cursors are known to the system by name, so
    that it answers itself where one is open or not. `wants_one_user`: why a case is done again by one user alone. `lacks_states`: with
    what the SQLSTATE of a statement begins that the system can't say."""

    name = ""
    writer = Writer
    has_users = False
    has_cursors = False
    wants_one_user = None
    lacks_states = ("42", "0A")

    def start(self):
        """Starts what all cases need."""

    def stop(self):
        """Ends what `start` started."""

    def version(self):
        raise NotImplementedError

    def begin(self, users):
        """An empty database, with these users."""
        raise NotImplementedError

    def end(self):
        """The database isn't wanted any longer."""

    def define(self, user, element):
        """An element of a schema."""
        writer = self.writer(user)
        if isinstance(element, Table):
            self.command(user, writer.definition(element))
        elif not isinstance(element, Grant):
            self.command(user, writer.view(element))
        elif self.has_users:
            self.command(user, writer.grant(element))

    def command(self, user, words):
        """A statement without parameters that isn't of a transaction's."""
        raise NotImplementedError

    def change(self, user, words, values):
        """An INSERT, UPDATE or DELETE; gives the number of rows."""
        raise NotImplementedError

    def rows(self, user, words, values):
        """The `Result` of a query."""
        raise NotImplementedError

    def open(self, user, name, cursor, words, values):
        """Opens a cursor; `words` are its query."""
        raise NotImplementedError

    def fetch(self, user, name, orientation, amount):
        """A `Result` with one row, or without."""
        raise NotImplementedError

    def close(self, user, name):
        raise NotImplementedError

    def change_current(self, user, name, statement, writer):
        """An UPDATE or DELETE of the row on which the cursor is."""
        raise NotImplementedError

    def commit(self, user):
        raise NotImplementedError

    def rollback(self, user):
        raise NotImplementedError

    def lacks(self, refused):
        """Why the system can't say a statement which it refused, or None if it could."""
        return refused.message if refused.state.startswith(self.lacks_states) else None
