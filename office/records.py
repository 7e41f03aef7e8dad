"""Dataclasses for what a start imports. Those of the standard library import inspect and what it needs, and compile six
functions for each class, which took longer than the rest of a start; these compile nothing.

What reads types takes them for the standard ones, which they follow: fields by their annotations, given in that order
or by name, and two of a class are equal if all their fields are. That nobody changes a frozen one is seen to there.
"""
TYPE_CHECKING = False
if TYPE_CHECKING:
    from dataclasses import dataclass, field, replace
else:
    def dataclass(made=None, *, frozen=False):
        """A class with a field for each annotation."""
        if made is None:
            return lambda some: dataclass(some, frozen=frozen)
        made.__match_args__ = (*made.__annotations__,)
        made.__init__, made.__eq__, made.__repr__ = begin, alike, shown
        made.__hash__ = (lambda self: hash(values_of(self))) if frozen else None
        return made

    class field:
        """What makes the default of a field."""

        def __init__(self, default_factory):
            self.made = default_factory

    def replace(one, **other):
        """The same, but for some fields."""
        return type(one)(**dict(zip(one.__match_args__, values_of(one))) | other)

    def begin(self, *given, **named):
        """Sets the fields, in their order."""
        if named or len(given) != len(self.__match_args__):
            given = in_order(type(self), given, named)
        self.__dict__.update(zip(self.__match_args__, given))

    def in_order(made, given, named):
        """The values of all fields of a class; one that is not given has its default."""
        names, values = made.__match_args__, dict(zip(made.__match_args__, given)) | named
        if len(given) > len(names) or not values.keys() <= {*names}:
            raise TypeError(f'{made.__name__} has the fields {", ".join(names)}')
        told = [values[name] if name in values else getattr(made, name) for name in names]
        return [value.made() if isinstance(value, field) else value for value in told]

    def values_of(self):
        return tuple(getattr(self, name) for name in self.__match_args__)

    def alike(self, other):
        return values_of(self) == values_of(other) if type(self) is type(other) else NotImplemented

    def shown(self):
        told = ', '.join(f'{name}={value!r}' for name, value in zip(self.__match_args__, values_of(self)))
        return f'{type(self).__name__}({told})'

__all__ = ['dataclass', 'field', 'replace']
