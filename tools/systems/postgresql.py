"""PostgreSQL, over a server of its own on a socket in a folder of its own. Users are roles, schemas are schemas, and each statement has its
savepoint, since a statement that fails would end the transaction.
"""

import glob
import os
import pwd
import shutil
import subprocess
import tempfile
import time
from decimal import Decimal

from system import Refused, Result, System
from writing import Writer

NUMBERS = {20, 21, 23, 26, 700, 701, 1700}
SECONDS_TO_START = 60
OWN_STATES = ("42501", "42P03")


class PostgresqlWriter(Writer):
    """A parameter stands as its value in its type."""

    def placed(self, domain, value):
        literal = "NULL" if value is None else "'" + str(value).replace("'", "''") + "'"
        return f"CAST({literal} AS {self.domain(domain)})"


class Postgresql(System):
    name = "PostgreSQL"
    writer = PostgresqlWriter
    has_users = True
    has_cursors = True
    lacks_states = ("42", "0A", "54")

    def start(self):
        import psycopg2

        self.fault = psycopg2.Error
        self.folder = tempfile.mkdtemp(prefix="systems-")
        self.as_user = "postgres" if os.getuid() == 0 else None
        if self.as_user:
            shutil.chown(self.folder, pwd.getpwnam(self.as_user).pw_uid)
        binaries = max(glob.glob("/usr/lib/postgresql/*/bin"))
        data = f"{self.folder}/data"
        subprocess.run([f"{binaries}/initdb", "-D", data, "-U", "tool", "-A", "trust", "--locale=C", "-E", "UTF8", "--no-sync"],
                       check=True, stdout=subprocess.DEVNULL, user=self.as_user, cwd=self.folder)
        settings = ["listen_addresses=", f"unix_socket_directories={self.folder}", "fsync=off", "max_locks_per_transaction=4096", "jit=off"]
        words = [f"{binaries}/postgres", "-D", data, *[word for setting in settings for word in ("-c", setting)]]
        self.server = subprocess.Popen(words, user=self.as_user, cwd=self.folder, stderr=subprocess.DEVNULL)
        self.connection = self.connected(psycopg2)
        self.connection.autocommit = True
        self.cursor, self.roles, self.schemas = self.connection.cursor(), set(), []

    def connected(self, psycopg2):
        until = time.monotonic() + SECONDS_TO_START
        while True:
            try:
                return psycopg2.connect(host=self.folder, user="tool", dbname="postgres")
            except psycopg2.OperationalError:
                if time.monotonic() > until:
                    raise
                time.sleep(0.1)

    def stop(self):
        if hasattr(self, "server"):
            self.server.send_signal(subprocess.signal.SIGINT)
            self.server.wait()
        shutil.rmtree(self.folder, ignore_errors=True)

    def version(self):
        return self.connection.get_parameter_status("server_version").split()[0]

    def begin(self, users):
        for user in sorted(set(users) - self.roles):
            self.cursor.execute(f'CREATE ROLE "{user}"')
        self.roles.update(users)
        self.schemas = users
        self.cursor.execute("BEGIN")
        for user in users:
            self.cursor.execute(f'CREATE SCHEMA "{user}" AUTHORIZATION "{user}"; GRANT USAGE ON SCHEMA "{user}" TO PUBLIC')

    def end(self):
        self.cursor.execute("ROLLBACK")
        for user in self.schemas:
            self.cursor.execute(f'DROP SCHEMA IF EXISTS "{user}" CASCADE')

    def run(self, user, words):
        """Performs a statement as a user; one that fails leaves the transaction as it was."""
        self.cursor.execute(f'SET LOCAL ROLE "{user}"; SAVEPOINT before')
        try:
            self.cursor.execute(words)
        except self.fault as fault:
            self.cursor.execute("ROLLBACK TO before")
            raise Refused(fault.pgcode, fault.diag.message_primary) from fault
        description, rows = self.cursor.description, self.cursor.fetchall() if self.cursor.description else []
        count = self.cursor.rowcount
        self.cursor.execute("RELEASE before")
        return Result(["number" if each.type_code in NUMBERS else "text" for each in description or []], [tuple(map(come, row)) for row in rows]), count

    def command(self, user, words):
        self.run(user, words)

    def change(self, user, words, values):
        return self.run(user, words)[1]

    def rows(self, user, words, values):
        return self.run(user, words)[0]

    def open(self, user, name, cursor, words, values):
        insensitive, scrolls = "INSENSITIVE " if cursor.insensitive else "", "SCROLL " if cursor.scrolls else ""
        self.run(user, f'DECLARE "{name}" {insensitive}{scrolls}CURSOR FOR {words}')

    def fetch(self, user, name, orientation, amount):
        return self.run(user, f'FETCH {orientation}{"" if amount is None else f" {amount}"} FROM "{name}"')[0]

    def close(self, user, name):
        self.run(user, f'CLOSE "{name}"')

    def change_current(self, user, name, statement, writer):
        return self.run(user, writer.change(statement))[1]

    def commit(self, user):
        self.cursor.execute("COMMIT; BEGIN")

    def rollback(self, user):
        self.cursor.execute("ROLLBACK; BEGIN")

    def lacks(self, refused):
        return None if refused.state in OWN_STATES else super().lacks(refused)


def come(value):
    """A value as it is compared: whole numbers come as `int`."""
    return Decimal(value) if isinstance(value, int) else value
