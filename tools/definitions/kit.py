"""The kit's prelude: the functions of the kit that the definitions use, written in Python.

This is the one part that is not translated from the text of the definitions. Each entry has the number of arguments,
which of them are functions (with their number of arguments), and the function.
"""

import calendar
import datetime
from functools import reduce

from .values import NONE, Con, difference, some


def find(test, items):
    for x in items:
        if test(x):
            return some(x)
    return NONE


def filter_map(function, items):
    found = (function(x) for x in items)
    return tuple(x.args[0] for x in found if x.tag == "Some")


def flat_map(function, items):
    return tuple(y for x in items for y in function(x))


def position(test, items):
    for place, x in enumerate(items):
        if test(x):
            return some(place)
    return NONE


def prefix_len(test, items):
    for place, x in enumerate(items):
        if not test(x):
            return place
    return len(items)


def slice_split(test, items):
    parts, part = [], []
    for x in items:
        if test(x):
            parts.append(tuple(part))
            part = []
        else:
            part.append(x)
    return (*parts, tuple(part))


def strip_carriage_return(text):
    return text[:-1] if text and text[-1] == 13 else text


def lines(text):
    parts = slice_split(lambda byte: byte == 10, text)
    return tuple(map(strip_carriage_return, parts[:-1])) + (parts[-1:] if parts[-1] else ())


def is_utf8(text):
    try:
        bytes(text).decode("utf-8")
    except (UnicodeDecodeError, ValueError):
        return False
    return True


def slice_get(items, place):
    place = int(place)
    return some(items[place]) if place < len(items) else NONE


def pointwise(same, xs, ys):
    return len(xs) == len(ys) and all(map(same, xs, ys))


def ends_with(same, items, end):
    return pointwise(same, items[len(items) - min(len(items), len(end)):], end)


def slice_cmp(compare, xs, ys):
    for x, y in zip(xs, ys):
        order = compare(x, y)
        if order.tag != "Ordering.Equal":
            return order
    return nat_cmp(len(xs), len(ys))


LESS, EQUAL, GREATER = Con("Ordering.Less"), Con("Ordering.Equal"), Con("Ordering.Greater")


def nat_cmp(a, b):
    return LESS if a < b else GREATER if a > b else EQUAL


def match_ordering(order, less, equal, greater):
    return {"Ordering.Less": less, "Ordering.Equal": equal, "Ordering.Greater": greater}[order.tag]


def folded(function, start, items):
    return reduce(function, items, start)


def reduced(function, items):
    return some(reduce(function, items)) if items else NONE


def lookup(test, table):
    for row in table:
        if test(row[0]):
            return some(row[1])
    return NONE


def is_alphanumeric(byte):
    return 48 <= byte <= 57 or is_letter(byte)


def is_letter(byte):
    return 65 <= byte <= 90 or 97 <= byte <= 122


def lowered(byte):
    return byte + 32 if 65 <= byte <= 90 else byte


def decimal(number):
    return tuple(str(int(number)).encode())


def option_map_or(function, option, otherwise):
    return function(option.args[0]) if option.tag == "Some" else otherwise


def ok_or(option, error):
    return Con("Ok", option.args) if option.tag == "Some" else Con("Err", (error,))


def days_from_civil(year, month, day):
    """The number of a day of the years 1 to 9999, from 1 January 1970."""
    return datetime.date(year, month, day).toordinal() - datetime.date(1970, 1, 1).toordinal()


# name: the number of arguments, {place of an argument that is a function: its number of arguments}, the function
KIT = {
    # lists
    "fold": (3, {0: 2}, folded),
    "filter": (2, {0: 1}, lambda test, items: tuple(x for x in items if test(x))),
    "find": (2, {0: 1}, find),
    "map": (2, {0: 1}, lambda function, items: tuple(map(function, items))),
    "filter_map": (2, {0: 1}, filter_map),
    "flat_map": (2, {0: 1}, flat_map),
    "list_any": (2, {0: 1}, lambda test, items: any(map(test, items))),
    "list_all": (2, {0: 1}, lambda test, items: all(map(test, items))),
    "All": (2, {0: 1}, lambda test, items: all(map(test, items))),
    "drop": (2, {}, lambda count, items: items[count:]),
    "take": (2, {}, lambda count, items: items[:count]),
    "length": (1, {}, len),
    "reverse": (1, {}, lambda items: items[::-1]),
    "position": (2, {0: 1}, position),
    "sum_by": (2, {0: 1}, lambda function, items: sum(map(function, items))),
    "count_by": (2, {0: 1}, lambda test, items: sum(1 for x in items if test(x))),
    "insert": (3, {}, lambda items, place, x: items[:place] + (x,) + items[place:]),
    "slice_get": (2, {}, slice_get),
    "slice_index": (2, {}, lambda items, place: items[place] if place < len(items) else 0),
    "slice_index_or": (3, {}, lambda items, place, other: items[place] if place < len(items) else other),
    "get_or": (3, {}, lambda items, place, other: items[place] if place < len(items) else other),
    "slice_range": (3, {}, lambda items, first, end: items[first:end]),
    "slice_split": (2, {0: 1}, slice_split),
    "prefix_len": (2, {0: 1}, prefix_len),
    "suffix_len": (2, {0: 1}, lambda test, items: prefix_len(test, items[::-1])),
    "starts_with": (3, {0: 2}, lambda same, items, front: pointwise(same, items[:len(front)], front)),
    "ends_with": (3, {0: 2}, ends_with),
    "pointwise": (3, {0: 2}, pointwise),
    "replicate": (2, {}, lambda count, x: (x,) * count),
    "last_or": (2, {}, lambda other, items: some(items[-1]) if items else other),
    "reduce": (2, {0: 2}, reduced),
    "lookup": (2, {0: 1}, lookup),
    "range_with_len": (2, {}, lambda first, count: tuple(range(first, first + count))),
    # options and results
    "option_map": (2, {0: 1}, lambda function, o: some(function(o.args[0])) if o.tag == "Some" else o),
    "option_map_or": (3, {0: 1}, option_map_or),
    "option_and_then": (2, {0: 1}, lambda function, o: function(o.args[0]) if o.tag == "Some" else o),
    "option_or": (2, {}, lambda o, other: o if o.tag == "Some" else other),
    "option_to_list": (1, {}, lambda o: o.args),
    "unwrap_or": (2, {}, lambda o, other: o.args[0] if o.tag == "Some" else other),
    "is_some": (1, {}, lambda o: o.tag == "Some"),
    "ok_or": (2, {}, ok_or),
    "result_unwrap_or": (2, {}, lambda r, other: r.args[0] if r.tag == "Ok" else other),
    # numbers
    "nat_lt": (2, {}, lambda a, b: a < b),
    "nat_le": (2, {}, lambda a, b: a <= b),
    "nat_eq": (2, {}, lambda a, b: a == b),
    "int_lt": (2, {}, lambda a, b: a < b),
    "int_le": (2, {}, lambda a, b: a <= b),
    "nat_abs": (1, {}, abs),
    "neg_ℤ": (1, {}, lambda a: -a),
    "suc": (1, {}, lambda a: a + 1),
    "pos": (1, {}, lambda a: a),
    "negsuc": (1, {}, lambda a: -a - 1),
    "min": (2, {}, lambda a, b: a if a <= b else b),
    "max": (2, {}, lambda a, b: b if a <= b else a),
    "is_in_range": (3, {}, lambda low, high, x: low <= x <= high),
    # Bool
    "not": (1, {}, lambda a: not a),
    "beq": (2, {}, lambda a, b: a == b),
    "IsTrue": (1, {}, lambda a: a),
    "IsFalse": (1, {}, lambda a: not a),
    # texts
    "bytes_eq": (2, {}, lambda a, b: a == b),
    "codes": (1, {}, lambda text: tuple(map(ord, text))),
    "decimal": (1, {}, decimal),
    "signed_decimal": (1, {}, decimal),
    "is_utf8": (1, {}, is_utf8),
    "is_ascii_digit": (1, {}, lambda byte: 48 <= byte <= 57),
    "is_ascii_alphanumeric": (1, {}, is_alphanumeric),
    "eq_ignore_ascii_case": (2, {}, lambda a, b: lowered(a) == lowered(b)),
    "str_eq_ignore_ascii_case": (2, {}, lambda a, b: [lowered(x) for x in a] == [lowered(y) for y in b]),
    "lines": (1, {}, lines),
    # the calendar
    "days_in_month": (2, {}, lambda year, month: calendar.monthrange(year, month)[1]),
    "days_from_civil": (3, {}, days_from_civil),
    # orders
    "nat_cmp": (2, {}, nat_cmp),
    "slice_cmp": (3, {0: 2}, slice_cmp),
    "match_ordering": (4, {}, match_ordering),
}

# constructors and constants of the kit
CONSTRUCTORS = {"Some": "Some", "None": "None", "Ok": "Ok", "Err": "Err"}
CONSTANTS = {"zero": "0", "true": "True", "false": "False", "[]": "()", "tt": "True", "Unit": "True", "⊤": "True",
             "⊥": "False"}

# what the operators are in Python
OPERATORS = {
    "||": "({} or {})", "&&": "({} and {})", "==": "({} == {})", "++": "({} + {})", "+": "({} + {})",
    "+ℤ": "({} + {})", "-ℤ": "({} - {})", "*": "({} * {})", "*ℤ": "({} * {})", "/": "quotient({}, {})",
    "%": "remainder({}, {})", "^": "({} ** {})", "-": "difference({}, {})", "<": "({} < {})", "≤": "({} <= {})",
    "<ℤ": "({} < {})", "≤ℤ": "({} <= {})", "×": "({} and {})", "⊎": "({} or {})", "≡": "same({}, {})",
    "≢": "(not same({}, {}))", "→": "(not {} or {})", "∷": "(({},) + {})",
}


def quotient(a, b):
    """a / b of ℕ, which is 0 where b is."""
    return a // b if b else 0


def remainder(a, b):
    """The remainder of ℕ, which is a where b is 0."""
    return a % b if b else a


SPACE = {"quotient": quotient, "remainder": remainder, "difference": difference}
