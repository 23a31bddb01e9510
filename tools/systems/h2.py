"""H2, in memory."""

from jdbc import OneUser, OneUserWriter


class H2(OneUser):
    name = "H2"
    archive = "h2.jar"
    url = "jdbc:h2:mem:case{}"
    words = OneUserWriter
    lacks_states = ("42", "0A", "HYC00", "90")

    def lacks(self, refused):
        return None if refused.state in OWN_STATES else super().lacks(refused)


# Classes of its own that say what a statement came to, and not that it can't be said: a subquery of several rows, and no such cursor row.
OWN_STATES = ("90053",)
