"""Reads schemas, modules and scripts."""

from terms import Misplaced, Terms
from trees import (
    Call, Check, Close, ColumnElement, Commit, CurrentOf, Cursor, Delete, Fetch, Grant, Insert, Key, Module, NotNull, Null, Number, Open,
    Procedure, Reference, Rollback, Schema, SelectInto, Show, Table, Text, Update, User, View,
)


class Reader(Terms):
    """Reads the texts of a run."""

    # schemas

    def schemas(self):
        found = []
        while self.spelled:
            self.need("CREATE", "SCHEMA", "AUTHORIZATION")
            found.append(Schema(self.name(), self.schema_elements()))
            self.has(";")
        return found

    def schema_elements(self):
        elements = []
        while True:
            if self.has("CREATE", "TABLE"):
                elements.append(Table(self.table_name(), self.bracketed(lambda: self.several(self.element))))
            elif self.has("CREATE", "VIEW"):
                elements.append(self.view())
            elif self.has("GRANT"):
                elements.append(self.grant())
            else:
                return elements

    def element(self):
        if self.spelled in ("UNIQUE", "PRIMARY"):
            return self.key()
        if self.has("FOREIGN", "KEY"):
            return self.reference(self.columns())
        if self.has("CHECK"):
            return Check(self.bracketed(self.condition))
        name, domain = self.name(), self.domain()
        default = self.default() if self.has("DEFAULT") else None
        constraints = []
        while (found := self.constraint()) is not None:
            constraints.append(found)
        return ColumnElement(name, domain, default, constraints)

    def constraint(self):
        if self.has("NOT", "NULL"):
            return NotNull()
        if self.spelled in ("UNIQUE", "PRIMARY"):
            return self.key()
        if self.spelled == "REFERENCES":
            return self.reference([])
        return Check(self.bracketed(self.condition)) if self.has("CHECK") else None

    def key(self):
        words = "UNIQUE" if self.has("UNIQUE") else "PRIMARY KEY"
        if words == "PRIMARY KEY":
            self.need("PRIMARY", "KEY")
        return Key(words, self.columns())

    def reference(self, columns):
        self.need("REFERENCES")
        return Reference(columns, self.table_name(), self.columns())

    def default(self):
        if self.has("USER"):
            return User()
        if self.has("NULL"):
            return Null()
        if self.is_called("text"):
            return Text(self.literal())
        return Number(self.signed_number())

    def view(self):
        name, columns = self.table_name(), self.columns()
        self.need("AS")
        return View(name, columns, self.select(), self.has("WITH", "CHECK", "OPTION"))

    def grant(self):
        actions = [("ALL PRIVILEGES", [])] if self.has("ALL", "PRIVILEGES") else self.several(lambda: (self.take(), self.columns()))
        self.need("ON")
        self.has("TABLE")
        table = self.table_name()
        self.need("TO")
        grantees = self.several(lambda: "PUBLIC" if self.has("PUBLIC") else self.name())
        return Grant(actions, table, grantees, self.has("WITH", "GRANT", "OPTION"))

    # modules

    def module(self):
        self.need("MODULE")
        name = self.name()
        self.need("LANGUAGE")
        self.name()
        self.need("AUTHORIZATION")
        module = Module(name, self.name())
        while self.spelled:
            if self.has("DECLARE"):
                cursor = self.cursor()
                module.cursors[cursor.name] = cursor
            else:
                procedure = self.procedure()
                module.procedures[procedure.name] = procedure
        return module

    def cursor(self):
        name, insensitive, scrolls = self.name(), self.has("INSENSITIVE"), self.has("SCROLL")
        self.need("CURSOR", "FOR")
        query = self.query()
        keys = self.several(self.sort_key) if self.has("ORDER", "BY") else []
        self.has(";")
        return Cursor(name, insensitive, scrolls, query, keys)

    def sort_key(self):
        by = self.take()
        descends = self.has("DESC")
        self.has("ASC")
        return by, descends

    def procedure(self):
        self.need("PROCEDURE")
        name, in_brackets = self.name(), self.has("(")
        parameters = {}
        while not self.has(")") if in_brackets else self.spelled != ";":
            self.declaration(parameters)
            self.has(",")
        self.need(";")
        statement = self.statement()
        self.need(";")
        return Procedure(name, parameters, statement)

    def declaration(self, parameters):
        if self.has(":"):
            name = self.name()
            parameters[name] = self.domain()
        elif self.take() not in ("SQLCODE", "SQLSTATE"):
            raise Misplaced("a declaration is wanted")

    def statement(self):
        word = self.take()
        if word in ("COMMIT", "ROLLBACK"):
            self.has("WORK")
            return Commit() if word == "COMMIT" else Rollback()
        return {"OPEN": lambda: Open(self.name()), "CLOSE": lambda: Close(self.name()), "FETCH": self.fetch, "SELECT": self.select_into,
                "INSERT": self.insert, "UPDATE": self.update, "DELETE": self.delete}[word]()

    def fetch(self):
        orientation, amount = "NEXT", None
        if self.spelled in ("NEXT", "PRIOR", "FIRST", "LAST", "ABSOLUTE", "RELATIVE"):
            orientation = self.take()
        if orientation in ("ABSOLUTE", "RELATIVE"):
            amount = self.parameter() if self.spelled == ":" else Number(self.signed_number())
        self.has("FROM")
        name = self.name()
        self.need("INTO")
        return Fetch(name, orientation, amount, self.several(self.parameter))

    def select_into(self):
        distinct, values = self.select_list()
        self.need("INTO")
        targets = self.several(self.parameter)
        return SelectInto(self.rest_of_select(distinct, values), targets)

    def insert(self):
        self.need("INTO")
        table, columns = self.table_name(), self.columns()
        if self.has("VALUES"):
            return Insert(table, columns, self.bracketed(lambda: self.several(self.value)))
        return Insert(table, columns, self.select())

    def value(self):
        return Null() if self.has("NULL") else self.expression()

    def update(self):
        table = self.table_name()
        self.need("SET")
        return Update(table, self.several(self.assignment), self.where())

    def assignment(self):
        column = self.name()
        self.need("=")
        return column, self.value()

    def delete(self):
        self.need("FROM")
        return Delete(self.table_name(), self.where())

    def where(self):
        if self.has("WHERE", "CURRENT", "OF"):
            return CurrentOf(self.name())
        return self.condition() if self.has("WHERE") else None

    # scripts

    def script(self):
        items = []
        while self.spelled:
            if self.has("TABLE"):
                items.append(Show(self.table_name()))
            else:
                self.need("CALL")
                items.append(self.call())
            self.need(";")
        return items

    def call(self):
        module = self.name()
        self.need(".")
        procedure = self.name()
        arguments = []
        if self.has("(") and not self.has(")"):
            arguments = self.several(self.argument)
            self.need(")")
        return Call(module, procedure, arguments)

    def argument(self):
        if self.has("*"):
            return "*"
        return self.literal() if self.is_called("text") else self.signed_number()
