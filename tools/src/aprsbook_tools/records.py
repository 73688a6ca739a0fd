"""Named tuples as of `typing`, whose import takes as long as a small report."""
import collections

from aprsbook_tools import TYPE_CHECKING

if TYPE_CHECKING:
    from typing import NamedTuple as NamedTuple
else:
    class Made(type):
        """Makes a class with fields a named tuple that has its methods."""

        def __new__(cls, name, bases, space):
            if not bases:
                return super().__new__(cls, name, bases, space)
            fields = space["__annotations__"]
            defaults = [space.pop(it) for it in fields if it in space]
            made = collections.namedtuple(
                name, fields, defaults=defaults, module=space["__module__"])
            for key in space.keys() - {"__module__", "__qualname__", "__slots__"}:
                setattr(made, key, space[key])
            return made

    class NamedTuple(metaclass=Made):
        """What a named tuple is made of: the fields, with defaults, and methods."""
