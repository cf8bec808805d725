"""A refusal, by its number."""


class Refused(Exception):
    def __init__(self, number):
        super().__init__(number)
        self.number = number


class TypeErrors(Refused):
    """5, with the type error's six words."""

    def __init__(self, error):
        super().__init__(5)
        self.error = error


def need(test, number):
    if not test:
        raise Refused(number)
