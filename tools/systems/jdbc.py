"""What the systems have in common that are reached by JDBC: one process of Jdbc.java, in which their databases are in memory."""

import select
import subprocess
from contextlib import suppress
from decimal import Decimal
from pathlib import Path

from system import Refused, Result, System
from trees import Delete, Null, Number, Parameter, Text
from writing import Unsayable, Writer

SECONDS = 30
NO_ANSWER = f"no answer in {SECONDS} seconds"
SEVERAL = "USER where there are several users"
HERE = Path(__file__).resolve().parent


def escaped(word):
    return word.replace("\\", "\\\\").replace("\t", "\\t").replace("\n", "\\n").replace("\r", "\\r")


def unescaped(word):
    pieces = word.split("\\\\")
    return "\\".join(piece.replace("\\t", "\t").replace("\\n", "\n").replace("\\r", "\r") for piece in pieces)


def sent(values):
    """Parameters with their types as words."""
    words = []
    for domain, value in values:
        kind = "C" if domain.is_text else "N"
        words += [kind.lower() if value is None else kind, "" if value is None else str(value)]
    return words


def come(word):
    return None if word == "0" else Decimal(word[1:]) if word[0] == "N" else word[1:]


def result(words):
    """A `Result` from the number of columns, their kinds, and values."""
    count = int(words[0])
    values = [come(word) for word in words[1 + count :]]
    return Result(words[1 : 1 + count], [tuple(values[at : at + count]) for at in range(0, len(values), count)])


class Jdbc(System):
    """`archive` is the system's, `url` leads to a database in memory by its number; `changes_by_name` where WHERE CURRENT OF is said; `options` are Java's."""

    archive = ""
    url = ""
    changes_by_name = False
    options = ()
    count = 0

    def start(self):
        archive = Path("/usr/share/java") / self.archive
        if not archive.exists():
            raise FileNotFoundError(f"{archive} is not there; tools/systems/try.sh installs it")
        self.gone = False
        words = ["java", "-Xmx1g", "-XX:+UseSerialGC", "-XX:TieredStopAtLevel=1", *self.options, "-cp", str(archive), str(HERE / "Jdbc.java")]
        self.java = subprocess.Popen(words, stdin=subprocess.PIPE, stdout=subprocess.PIPE, text=True, encoding="latin-1")

    def stop(self):
        if not self.gone:
            self.java.stdin.close()
        self.java.wait()

    def ask(self, *words):
        if self.gone:
            raise Unsayable(NO_ANSWER)
        self.java.stdin.write("\t".join(map(escaped, words)) + "\n")
        self.java.stdin.flush()
        if not select.select([self.java.stdout], [], [], SECONDS)[0]:
            self.java.kill()
            self.gone = True
            raise Unsayable(NO_ANSWER)
        answer, *rest = map(unescaped, self.java.stdout.readline().rstrip("\n").split("\t"))
        if answer == "refused":
            raise Refused(rest[0], rest[1])
        return rest

    def version(self):
        self.begin([])
        version = self.ask("version")[0]
        self.end()
        return version.split()[0]

    def connect(self, user, password=""):
        self.ask("connect", self.url.format(self.count), user, password)

    def begin(self, users):
        if self.gone:
            self.start()
        self.count += 1
        self.user, self.users = None, users
        self.connect(self.first_user())
        self.create(users)
        self.ask("commit")

    def first_user(self):
        return "SA"

    def create(self, users):
        """Schemas, and users where there are some."""
        for user in users:
            self.ask("change", f'CREATE SCHEMA "{user}"')

    def end(self):
        """Ends the connection; what a system has against that doesn't matter any longer."""
        with suppress(Refused, Unsayable):
            self.ask("disconnect")

    def be(self, user):
        """Sees to it that what follows is done as a user."""

    def command(self, user, words):
        self.be(user)
        self.ask("change", words)

    def change(self, user, words, values):
        self.be(user)
        return int(self.ask("change", words, *sent(values))[0])

    def rows(self, user, words, values):
        self.be(user)
        return result(self.ask("rows", words, *sent(values)))

    def open(self, user, name, cursor, words, values):
        self.be(user)
        changes = not (cursor.insensitive or cursor.scrolls or cursor.keys)
        self.ask("open", name, "scrolls" if cursor.scrolls else "", "changes" if changes else "", words, *sent(values))

    def fetch(self, user, name, orientation, amount):
        self.be(user)
        return result(self.ask("fetch", name, orientation, "" if amount is None else str(amount)))

    def close(self, user, name):
        self.ask("close", name)

    def change_current(self, user, name, statement, writer):
        self.be(user)
        if self.changes_by_name:
            return int(self.ask("change", writer.change(statement), *sent(writer.values))[0])
        if isinstance(statement, Delete):
            return int(self.ask("delete", name)[0])
        return int(self.ask("update", name, *[word for each in statement.assignments for word in assigned(each, writer)])[0])

    def commit(self, user):
        self.ask("commit")

    def rollback(self, user):
        self.ask("rollback")


class OneUser(Jdbc):
    """A system whose session has one user for ever, so that all is done as the first user, who may do everything."""

    def first_user(self):
        return self.users[0] if self.users else "SA"

    def writer(self, user, parameters=None):
        writer = self.words(user, parameters)
        writer.knows_user = len(self.users) == 1 or parameters is not None and user == self.first_user()
        return writer


class UserWriter(Writer):
    """Says USER only where that is the session's user."""

    knows_user = True

    def current_user(self):
        if not self.knows_user:
            raise Unsayable(SEVERAL)
        return super().current_user()


class OneUserWriter(UserWriter):
    """Views can't be changed in these systems, so that none is asked for its option."""

    def check_option(self):
        return ""


def assigned(assignment, writer):
    """A column and its value for an update of a result's row, which takes values alone."""
    column, value = assignment
    match value:
        case Null():
            return [column, "c", ""]
        case Text(spelled):
            return [column, "C", spelled[1:-1].replace("''", "'")]
        case Number(spelled):
            return [column, "N", spelled]
        case Parameter():
            writer.expression(value)
            return [column, *sent(writer.values[-1:])]
    raise Unsayable("WHERE CURRENT OF with an expression")
