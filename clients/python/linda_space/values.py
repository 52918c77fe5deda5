"""Values, and patterns of values, within their limits; JSON values as fields of a tuple."""

from __future__ import annotations

import json
from enum import Enum
from typing import Any, Iterable, List, Sequence, Tuple, Union

from .errors import OutOfRange
from .limits import LEAST_INTEGER, MOST_FIELDS, MOST_INTEGER, MOST_TEXT, MOST_TIME, PACKED_FIELDS

Value = Union[int, str, bool]
Values = Tuple[Any, ...]              # a tuple: what comes back is typed as Any, since its kinds are known from the template only


class Formal(Enum):
    """A pattern that fits each value of a kind, or each value. Its number is its byte in a frame; TRIES goes as INT."""

    TRIES = 0
    INT = 4
    TEXT = 5
    BOOL = 6
    ANY = 7

    def fits(self, value: Value) -> bool:
        return self is ANY or type(value) is (str if self is TEXT else bool if self is BOOL else int)


INT, TEXT, BOOL, ANY, TRIES = Formal.INT, Formal.TEXT, Formal.BOOL, Formal.ANY, Formal.TRIES
Pattern = Union[int, str, bool, Formal]
Template = Tuple[Pattern, ...]


# ---- values within their limits

def as_value(value: object) -> Value:
    """The value, as an int, a str or a bool and of no class below these."""
    if type(value) is int and LEAST_INTEGER <= value <= MOST_INTEGER or type(value) is str and len(value) <= MOST_TEXT and value.isascii():
        return value                        # as most are; those below say the rest
    if isinstance(value, bool):
        return value
    if isinstance(value, int):
        within("an integer", value, LEAST_INTEGER, MOST_INTEGER)
        return int.__int__(value)
    if isinstance(value, str):
        try:
            size = len(value.encode())
        except UnicodeEncodeError as fault:
            raise OutOfRange(f"a text is not of Unicode: {fault}") from None
        if size > MOST_TEXT:
            raise OutOfRange(f"a text has {size} bytes, and {MOST_TEXT} at most are allowed")
        return str.__str__(value)           # not str(): that of an Enum of texts is its name
    raise OutOfRange(f"a value is an int, a str or a bool: {value!r}")


def few_enough(items: Sequence[object]) -> Sequence[object]:
    if len(items) > MOST_FIELDS:
        raise OutOfRange(f"there are {len(items)} fields, and {MOST_FIELDS} at most are allowed")
    return items


def as_tuple(values: Sequence[Value]) -> Values:
    """The tag and the fields of a tuple, within their limits."""
    if type(values) is not tuple and isinstance(values, (str, bytes)) or not values:
        raise OutOfRange(f"a tuple is a tag and its fields: {values!r}")
    tag, *fields = values
    return (as_value(tag), *map(as_value, few_enough(fields)))


def within(what: str, number: object, least: int, most: int) -> int:
    if isinstance(number, bool) or not isinstance(number, int) or not least <= number <= most:
        raise OutOfRange(f"{what} is an integer from {least} to {most}: {number!r}")
    return number


def as_seconds(what: str, seconds: object, least: float = 0.0) -> float:
    if isinstance(seconds, bool) or not isinstance(seconds, (int, float)) or not least <= seconds <= MOST_TIME:
        raise OutOfRange(f"{what} is a number of seconds: {seconds!r}")
    return seconds


# ---- JSON values as fields

PACKED: Tuple[Formal, ...] = (TEXT,) * PACKED_FIELDS


def pack(value: Any, fields: int = PACKED_FIELDS) -> Tuple[str, ...]:
    """A JSON value as `fields` texts, 30 if nothing else is said; those that are not needed are empty. So a template has as many places:

        space.out("doc", 7, *pack(value))
        unpack(space.take("doc", 7, *PACKED)[2:])
        space.out("note", *pack(value, 2))
        unpack(space.take("note", TEXT, TEXT)[1:])

    The value is what `json.dumps` takes: None, bool, int, float, str, list, tuple, dict. Its text is spelled without blanks, in UTF-8, and cut at the borders
    of characters into texts of at most 4,095 bytes. If all is ASCII, 4,095 bytes for each field fit: 122,850 for 30. If not, up to 3 bytes a cut are lost:
    4,092 bytes for each field but the last, and 4,095 for that, always fit: 122,763 for 30.

    Raises OutOfRange if it is longer, if it is no JSON value (a set, bytes, NaN, a value that contains itself), or if `fields` is not 1 to 32.
    """
    within("a count of fields", fields, 1, MOST_FIELDS)
    try:
        try:
            data = json.dumps(value, ensure_ascii=False, allow_nan=False, separators=(",", ":")).encode()
        except UnicodeEncodeError:          # half of a character outside the first plane: JSON has an escape for it
            data = json.dumps(value, allow_nan=False, separators=(",", ":")).encode()
    except (TypeError, ValueError, RecursionError) as fault:
        raise OutOfRange(f"no JSON value: {fault}") from None
    texts: List[str] = []
    at = 0
    while at < len(data):
        end = min(at + MOST_TEXT, len(data))
        while end < len(data) and data[end] & 0xC0 == 0x80:
            end -= 1
        texts.append(data[at:end].decode())
        at = end
    if len(texts) > fields:
        raise OutOfRange(f"a JSON value has {len(data)} bytes, and {fields} fields of {MOST_TEXT} bytes are too few for it")
    return (*texts, *([""] * (fields - len(texts))))


def unpack(fields: Iterable[Value]) -> Any:
    """The JSON value that `pack` made these fields of. A tuple comes back as a list, and a key of a dict as a str, as with `json`. Raises OutOfRange if
    they are no texts, or make no JSON value together."""
    try:
        return json.loads("".join(fields))      # type: ignore[arg-type]
    except (TypeError, ValueError, RecursionError) as fault:
        raise OutOfRange(f"no packed value: {fault}") from None
