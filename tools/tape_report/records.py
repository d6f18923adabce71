"""Classes of named fields, as the module `dataclasses` makes them. Loading that one, and what it writes and compiles for
each class, would take a fifth of the time in which a tape of ten seconds is read.
"""
from collections.abc import Callable
from typing import TYPE_CHECKING, Any

if TYPE_CHECKING:
    from dataclasses import asdict, dataclass, field, replace
else:

    RECORDS: set[type] = set()

    class Factory:
        """What makes the value of a field that is not given."""

        def __init__(self, make: Callable[[], Any]) -> None:
            self.make = make

    def field(*, default_factory: Callable[[], Any]) -> Factory:
        return Factory(default_factory)

    def refused(self: Any, *_: Any) -> None:
        raise AttributeError(f"the fields of {type(self).__name__} do not change")

    def equal(self: Any, other: object) -> Any:
        return self.__dict__ == other.__dict__ if type(other) is type(self) else NotImplemented

    def hash_of(self: Any) -> int:
        return hash(tuple(self.__dict__.values()))

    def shown(self: Any) -> str:
        return f"{type(self).__name__}({', '.join(f'{name}={value!r}' for name, value in self.__dict__.items())})"

    def begin_of(names: tuple[str, ...], defaults: dict[str, Any]) -> Callable[..., None]:
        """How an object of these fields begins."""

        def begin(self: Any, *values: Any, **named: Any) -> None:
            there, given = self.__dict__, dict(zip(names, values))
            if len(values) > len(names) or given.keys() & named.keys() or named.keys() - set(names):
                raise TypeError(f"{type(self).__name__} has the fields {', '.join(names)}")
            given |= named
            for name in names:
                value = given[name] if name in given else defaults.get(name, refused)
                if value is refused:
                    raise TypeError(f"{type(self).__name__} wants its field {name}")
                there[name] = value.make() if isinstance(value, Factory) else value

        return begin

    def dataclass(made: type | None = None, *, frozen: bool = False) -> Any:
        """Gives a class what its fields ask for. Those of a frozen one do not change."""
        if made is None:
            return lambda later: dataclass(later, frozen=frozen)
        names = tuple(made.__annotations__)
        defaults = {name: made.__dict__[name] for name in names if name in made.__dict__}
        for name in [name for name, value in defaults.items() if isinstance(value, Factory)]:
            delattr(made, name)
        made.__init__, made.__eq__, made.__repr__ = begin_of(names, defaults), equal, shown
        made.__hash__ = hash_of if frozen else None
        if frozen:
            made.__setattr__ = made.__delattr__ = refused
        RECORDS.add(made)
        return made

    def replace(record: Any, **changes: Any) -> Any:
        """The same with other values in some fields."""
        return type(record)(**{**record.__dict__, **changes})

    def asdict(record: Any) -> dict[str, Any]:
        """The fields by their names, also of records in them."""
        return {name: plain(value) for name, value in record.__dict__.items()}

    def plain(value: Any) -> Any:
        if isinstance(value, (list, tuple)):
            return [plain(it) for it in value]
        if isinstance(value, dict):
            return {name: plain(it) for name, it in value.items()}
        return asdict(value) if type(value) in RECORDS else value
