"""What a test is given: cases by name, and numbers that the environment may name, as in `ROUNDS=240 pytest-3 ..`."""
import os

numbers = {}  # that tests of this run asked for


def number(name, default):
    """The number of this name in the environment, or the one that `make test` takes."""
    numbers[name] = it = type(default)(os.environ.get(name, default))
    return it


def each(names, rows):
    """A case for each row: its name, and the values of `names`."""
    import pytest  # (what lab/ plays by hand has none)
    return pytest.mark.parametrize(names, [pytest.param(*values, id=ascii(name)[1:-1]) for name, *values in rows])
