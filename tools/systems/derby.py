"""Derby, in memory. All cases are in one database, and their schemas have the number of the case behind their names: making a database takes long."""

from jdbc import OneUser, OneUserWriter
from writing import CorrelatedWriter, without_repeats


class DerbyWriter(OneUserWriter, CorrelatedWriter):
    case_number = 0

    def table(self, table):
        return f'"{table.schema or self.user}_{self.case_number}".{self.name(table.name)}'

    def kept(self, constraints):
        return without_repeats(constraints)


class Derby(OneUser):
    name = "Derby"
    archive = "derby.jar"
    url = "jdbc:derby:memory:cases;create=true"
    words = DerbyWriter
    changes_by_name = True
    # Joins in the order of FROM, since some runs join more tables than it can order in a minute; and no file of errors.
    options = ("-Dderby.optimizer.optimizeJoinOrder=false", "-Dderby.stream.error.file=/dev/null")
    lacks_states = ("42", "0A", "XJ")

    def create(self, users):
        for user in users:
            self.ask("change", f'CREATE SCHEMA "{user}_{self.count}"')
        if users:
            self.ask("change", f'SET SCHEMA "{users[0]}_{self.count}"')

    def writer(self, user, parameters=None):
        writer = super().writer(user, parameters)
        writer.case_number = self.count
        return writer
