"""Classes of named values, declared and used as those of the standard library's `dataclasses`.

That module writes and compiles functions of its own for each class, and imports much for it: with a hundred classes more time than all else
that a short command does. Here the functions go through a class's fields, and nothing is compiled."""
from __future__ import annotations

import sys
from operator import attrgetter
from typing import TYPE_CHECKING

if TYPE_CHECKING:
    from dataclasses import dataclass, field, replace
else:
    FIELDS = "__record_fields__"
    MISSING = object()

    class Field:
        """What is said of a field: how it gets its value if none is given, and where it counts."""

        def __init__(self, default=MISSING, default_factory=None, init=True, repr=True, compare=True):
            self.default, self.factory = default, default_factory
            self.is_given, self.is_shown, self.is_compared = init, repr, compare

        def value(self):
            """The value where none is given; MISSING if there is none."""
            return self.factory() if self.factory else self.default

    def field(**said):
        """A field with more than a default: `default`, `default_factory`, `init`, `repr`, `compare`."""
        return Field(**said)

    def dataclass(made=None, *, frozen=False, order=False):
        """Makes a class one of named values, those that it annotates, behind those of its bases."""
        if made is None:
            return lambda it: dataclass(it, frozen=frozen, order=order)
        fields = fields_of(made)
        setattr(made, FIELDS, fields)
        made.__init__ = init_of(fields, hasattr(made, "__post_init__"))
        compared = [name for name, it in fields.items() if it.is_compared]
        add_comparisons(made, attrgetter(*compared) if compared else lambda it: (), frozen, order)
        if "__repr__" not in made.__dict__:
            made.__repr__ = shown
        if frozen:
            made.__setattr__ = made.__delattr__ = refuse
        return made

    def replace(record, **changes):
        """The same values but for these, as a new one."""
        fields = getattr(record, FIELDS)
        given = {name: record.__dict__[name] for name, it in fields.items() if it.is_given}
        return type(record)(**{**given, **changes})

    def fields_of(made):
        """The fields of a class by name, those of its bases first; their defaults stay as attributes of the class."""
        fields = {}
        for base in reversed(made.__mro__[1:]):
            fields.update(base.__dict__.get(FIELDS, {}))
        # an older Python gives the annotations of a base for a class that has none
        own = made.__annotations__ if sys.version_info >= (3, 10) else made.__dict__.get("__annotations__", {})
        for name in own:
            said = made.__dict__.get(name, MISSING)
            fields[name] = said if isinstance(said, Field) else Field(said)
            if isinstance(said, Field):
                delattr(made, name)
        return fields

    def init_of(fields, has_more):
        """The function that takes the values of the fields, in their order or by name."""
        names = tuple(name for name, it in fields.items() if it.is_given)
        others = [(name, it) for name, it in fields.items() if not it.is_given and it.value() is not MISSING]
        count = len(names)

        def __init__(self, *values, **named):
            if named or len(values) != count:
                values = completed(type(self).__name__, names, fields, values, named)
            self.__dict__.update(zip(names, values))
            for name, it in others:
                self.__dict__[name] = it.value()
            if has_more:
                self.__post_init__()

        return __init__

    def completed(title, names, fields, values, named):
        """The values of all fields, where some are given by name or left to their defaults."""
        if len(values) > len(names):
            raise TypeError(f"{title} takes {len(names)} values, and {len(values)} were given")
        found = list(values)
        for name in names[len(values) :]:
            value = named.pop(name) if name in named else fields[name].value()
            if value is MISSING:
                raise TypeError(f"{title} needs a value for {name}")
            found.append(value)
        if named:
            raise TypeError(f"{title} can't take {', '.join(named)}")
        return found

    def add_comparisons(made, key, frozen, order):
        """Has values of the same class compared by their fields; only those that never change have a hash."""

        def compare(how):
            return lambda self, other: how(key(self), key(other)) if other.__class__ is self.__class__ else NotImplemented

        if "__eq__" not in made.__dict__:
            made.__eq__ = compare(lambda one, other: one == other)
            made.__hash__ = (lambda self: hash(key(self))) if frozen else None
        if order:
            made.__lt__, made.__le__ = compare(lambda one, other: one < other), compare(lambda one, other: one <= other)
            made.__gt__, made.__ge__ = compare(lambda one, other: one > other), compare(lambda one, other: one >= other)

    def shown(self):
        """The class and its fields, as one would write them."""
        values = (f"{name}={self.__dict__[name]!r}" for name, it in getattr(self, FIELDS).items() if it.is_shown)
        return f"{type(self).__qualname__}({', '.join(values)})"

    def refuse(self, name, *_):
        """Keeps a value that never changes as it is."""
        raise AttributeError(f"{type(self).__name__}.{name} can't be changed")
