"""Of what kind a value of a document is."""


def is_string(value) -> bool:
    return isinstance(value, str)


def is_integer(value) -> bool:
    return type(value) is int


def is_array_of(test):
    return lambda value: isinstance(value, list) and all(test(each) for each in value)
