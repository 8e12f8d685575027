"""The refusals that a script can meet, with their numbers, names and values."""

NAMES = {
    9: "NoSuchSnapshot",
    10: "Dropped",
    13: "JournalFull",
    19: "Syntax",
    20: "UnknownName",
    21: "NameTaken",
    22: "WrongType",
    23: "Overflow",
    24: "RowTooLong",
    25: "NotOneValue",
}


class Refused(Exception):
    """A refusal: its number, and its values in the order in which they are printed."""

    def __init__(self, number, *values):
        super().__init__(number, *values)
        self.number = number
        self.values = values

    def text(self):
        words = ["refused", str(self.number), NAMES[self.number]]
        return " ".join(words + [str(value) for value in self.values])


def syntax(place):
    return Refused(19, place)


def unknown_name():
    return Refused(20)


def name_taken():
    return Refused(21)


def wrong_type():
    return Refused(22)


def overflow():
    return Refused(23)


class BadScript(Exception):
    """The script's structure fails first at this line."""

    def __init__(self, line):
        super().__init__(line)
        self.line = line
