"""HSQLDB, in memory. A session may become another user between its transactions, and not inside one: a case that wants that is done by one user, who
may do everything.
"""

from jdbc import Jdbc, UserWriter
from system import Refused
from trees import Signed
from writing import Unsayable, without_repeats


class HsqldbWriter(UserWriter):
    """A sign behind an operator stands in brackets, and a key stands once."""

    def expression(self, tree):
        words = super().expression(tree)
        return f"({words})" if isinstance(tree, Signed) else words

    def kept(self, constraints):
        return without_repeats(constraints)


class Hsqldb(Jdbc):
    name = "HSQLDB"
    archive = "hsqldb.jar"
    url = "jdbc:hsqldb:mem:case{};shutdown=true"
    has_users = True
    wants_one_user = "another user in one transaction"

    def writer(self, user, parameters=None):
        writer = HsqldbWriter(user, parameters)
        writer.knows_user = self.has_users
        return writer

    def create(self, users):
        for user in users:
            self.ask("change", f"CREATE USER \"{user}\" PASSWORD ''")
            self.ask("change", f'GRANT CHANGE_AUTHORIZATION TO "{user}"')
            self.ask("change", f'CREATE SCHEMA "{user}" AUTHORIZATION "{user}"')

    def be(self, user):
        if self.has_users and user != self.user:
            try:
                self.ask("change", f"SET SESSION AUTHORIZATION '{user}'")
            except Refused as refused:
                raise Unsayable(self.wants_one_user) from refused
            self.user = user

    def lacks(self, refused):
        """The row of a result is changed only in columns that the cursor selects."""
        return "WHERE CURRENT OF for another column" if refused.message.startswith("Column not found") else super().lacks(refused)
