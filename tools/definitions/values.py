"""The values of definitions, the memory of what was computed, and numbers that stand for a whole stretch.

Numbers and Bool are Python's, lists and pairs are tuples, what a constructor makes is a `Con`, a record is a `Rec`,
and a function is a Python function of its number of arguments.

**Stretches.** Definitions go from millisecond to millisecond, by recursion on a number. Where nothing happens for a
day, 86 million steps are the same. A `Line` is a number that changes evenly: `start + fold * u + loop * t` for each
u and t from 0 on. What is computed with lines is computed for all these numbers at once, by the same definitions:
each comparison that would come out otherwise from some u or t on says so, and lowers the end of the stretch for
which the outcome holds (`ENDS`). So a recursion is followed by two rules, each an induction:

- a *fold*, `f (suc k) = E (f k)`: where E makes of a line, or of a value that stays, the same line or value one step
  further for a stretch, f has it at the end of the stretch (`Fold`; its numbers are counted by u);
- a *loop*, `f (suc k) state = f k (next state)`: where the next state of a line is the same line one step further for
  a stretch, the state at the end of the stretch follows (`Loop`; its numbers are counted by t). A loop may run to a
  number that is itself a line, as a presentation is resolved up to a moment that lies in a stretch.

What cannot be said for a stretch is said for its first number alone, so nothing is computed but what follows from
the definitions.
"""

NEVER = float("inf")


class Con:
    """What a constructor makes."""
    __slots__ = ("tag", "args", "token")

    def __init__(self, tag, args=()):
        self.tag = tag
        self.args = args
        self.token = None

    def __repr__(self):
        name = self.tag.rpartition(".")[2]
        return name if not self.args else f"({name} {' '.join(shown(x) for x in self.args)})"


class Rec:
    """A record; each set of field names has a class of its own."""
    __slots__ = ("token",)
    fields = ()

    def __repr__(self):
        if "serial" in self.fields and "attrs" in self.fields:
            return f"#{self.serial}"
        return "{" + "; ".join(f"{name.strip('_')} = {shown(getattr(self, name))}" for name in self.fields) + "}"

    def __getitem__(self, place):
        return getattr(self, f"_{place}")


RECORDS = {}


def record_class(fields):
    """The class of records with these fields, whose arguments come in this order."""
    key = tuple(sorted(fields))
    if key not in RECORDS:
        RECORDS[key] = type("Rec_" + "_".join(key), (Rec,), {"__slots__": key, "fields": key})
    made = RECORDS[key]
    lines = [f"def make({', '.join(fields)}):", "    RECORD = NEW(KIND)", "    RECORD.token = None"]
    lines += [f"    RECORD.{field} = {field}" for field in fields] + ["    return RECORD"]
    space = {"NEW": object.__new__, "KIND": made}
    exec("\n".join(lines), space)
    return space["make"]


def updated(base, **fields):
    """A record with other values of some fields."""
    made = object.__new__(type(base))
    made.token = None
    for name in base.fields:
        setattr(made, name, fields[name] if name in fields else getattr(base, name))
    return made


def shown(value):
    """A value in short."""
    if isinstance(value, tuple):
        if value and all(isinstance(x, int) and 32 <= x < 127 for x in value) and len(value) > 1:
            return '"' + bytes(value).decode() + '"'
        return "[" + ", ".join(shown(x) for x in value) + "]"
    if isinstance(value, (int, Con, Rec, Line)):
        return repr(value)
    return "λ"


NONE = Con("None")


def some(value):
    return Con("Some", (value,))


# ---- tokens: equal values have the same one

class Token:
    __slots__ = ("symbolic",)

    def __init__(self, symbolic):
        self.symbolic = symbolic


EMPTY = Token(False)
TOKENS, LISTS, FUNCTIONS = {}, {}, {}


def is_symbolic(key):
    """Whether there is a line in what has this key."""
    return type(key) is Line or type(key) is Token and key.symbolic


def token_for(parts):
    found = TOKENS.get(parts)
    if found is None:
        found = TOKENS[parts] = Token(any(map(is_symbolic, parts)))
    return found


def key_of_list(value):
    """The token of a list or a tuple."""
    found = LISTS.get(id(value))
    if found is None:
        if not value:
            return EMPTY
        found = LISTS[id(value)] = (value, token_for(tuple(map(key_of, value))))
    return found[1]


def key_of(value):
    """What stands for a value in the keys of the memory: a number, a line, or a token."""
    kind = type(value)
    if kind is int or kind is bool or kind is Line:
        return value
    if kind is tuple:
        return key_of_list(value)
    if kind is Con:
        if value.token is None:
            value.token = token_for((value.tag,) + tuple(map(key_of, value.args)))
        return value.token
    if isinstance(value, Rec):
        if value.token is None:
            value.token = token_for((kind,) + tuple(key_of(getattr(value, name)) for name in value.fields))
        return value.token
    if kind is str:
        return value
    found = FUNCTIONS.get(id(value))
    if found is None:
        found = FUNCTIONS[id(value)] = (value, Token(False))
    return found[1]


# ---- lines

FOLLOWS = [True]            # whether stretches are followed at all; without, each step is taken by itself
ENDS = [NEVER, NEVER]       # the end of the stretch that holds so far: for u, and for t
RUNS = []                   # numbers d: what is computed holds for t below d + u alone
ACTIVE = [0, 0]             # how many folds, and how many loops, are being followed


def lower(which, end):
    if end < ENDS[which]:
        ENDS[which] = end


def line(start, fold, loop):
    """The line, or the number that it is."""
    if not fold and not loop:
        return start
    found = LINES.get((start, fold, loop))
    if found is None:
        found = LINES[start, fold, loop] = Line(start, fold, loop)
    return found


LINES = {}


def only_start(value):
    """The first number of a line, where nothing can be said of the others."""
    if value.fold:
        lower(0, 1)
    if value.loop:
        lower(1, 1)
    return value.start


def is_positive(value):
    """Whether a number is above 0, for each number of a stretch."""
    if type(value) is not Line:
        return value > 0
    start, fold, loop = value.start, value.fold, value.loop
    if fold and loop:
        if (fold, loop) == (1, -1):
            if start >= 0:
                RUNS.append(start)
                return True
            lower(0, 1 - start)
            return False
        if (fold, loop) == (-1, 1):
            if start > 0:
                lower(0, start)
                return True
            RUNS.append(1 - start)
            return False
        return only_start(value) > 0
    which, slope = (0, fold) if fold else (1, loop)
    if start > 0:
        if slope < 0:
            lower(which, -(start // slope))
        return True
    if slope > 0:
        lower(which, -start // slope + 1)
    return False


def is_zero(value):
    """Whether a number is 0, for each number of a stretch."""
    if type(value) is not Line:
        return value == 0
    start, fold, loop = value.start, value.fold, value.loop
    if fold and loop:
        return only_start(value) == 0
    which, slope = (0, fold) if fold else (1, loop)
    if start == 0:
        lower(which, 1)
        return True
    if start * slope < 0 and start % slope == 0:
        lower(which, -(start // slope))
    return False


class Line:
    __slots__ = ("start", "fold", "loop")

    def __init__(self, start, fold, loop):
        self.start = start
        self.fold = fold
        self.loop = loop

    __hash__ = object.__hash__

    def __repr__(self):
        return f"{self.start}{self.fold:+}u{self.loop:+}t"

    def __add__(self, other):
        if type(other) is Line:
            return line(self.start + other.start, self.fold + other.fold, self.loop + other.loop)
        return line(self.start + other, self.fold, self.loop)

    __radd__ = __add__

    def __neg__(self):
        return line(-self.start, -self.fold, -self.loop)

    def __sub__(self, other):
        if type(other) is Line:
            return line(self.start - other.start, self.fold - other.fold, self.loop - other.loop)
        return line(self.start - other, self.fold, self.loop)

    def __rsub__(self, other):
        return line(other - self.start, -self.fold, -self.loop)

    def __mul__(self, other):
        if type(other) is Line:
            return only_start(self) * only_start(other)
        return line(self.start * other, self.fold * other, self.loop * other)

    __rmul__ = __mul__

    def __floordiv__(self, other):
        return only_start(self) // other

    def __rfloordiv__(self, other):
        return other // only_start(self)

    def __mod__(self, other):
        return only_start(self) % other

    def __rmod__(self, other):
        return other % only_start(self)

    def __pow__(self, other):
        return only_start(self) ** other

    def __rpow__(self, other):
        return other ** only_start(self)

    def __index__(self):
        return only_start(self)

    __int__ = __index__

    def __str__(self):
        return str(only_start(self))

    def __abs__(self):
        return -self if self < 0 else self

    def __bool__(self):
        return not is_zero(self)

    def __lt__(self, other):
        return is_positive(other - self)

    def __gt__(self, other):
        return is_positive(self - other)

    def __le__(self, other):
        return not is_positive(self - other)

    def __ge__(self, other):
        return not is_positive(other - self)

    def __eq__(self, other):
        return self is other or isinstance(other, (int, Line)) and is_zero(self - other)

    def __ne__(self, other):
        return not self == other


def difference(a, b):
    """a - b of ℕ, which is not below 0."""
    return a - b if a > b else 0


class Stretch:
    """Follows a stretch of one kind, apart from the stretches that are followed outside of it."""

    def __init__(self, which):
        self.which = which

    def __enter__(self):
        self.outer, self.runs = ENDS[self.which], RUNS[:]
        ENDS[self.which] = NEVER
        if self.which == 1:
            RUNS.clear()
        ACTIVE[self.which] += 1
        return self

    def __exit__(self, *error):
        self.end = ENDS[self.which]
        self.found_runs = RUNS[:]
        ENDS[self.which] = self.outer
        if self.which == 1:
            RUNS[:] = self.runs
        ACTIVE[self.which] -= 1
        return False


# ---- the memory

MOST_REMEMBERED = 1_500_000
MEMORIES = []
REMEMBERED = [0]


def forget():
    """Forgets all that was computed."""
    for memory in MEMORIES:
        memory.clear()
    for table in (TOKENS, LISTS, FUNCTIONS, LINES):
        table.clear()
    REMEMBERED[0] = 0


def remember(memory, key, function, arguments):
    """Computes what isn't remembered; with lines, also how far it holds."""
    if not ACTIVE[0] and not ACTIVE[1]:
        value = function(*arguments)
        memory[key] = (value, None)
    else:
        outer, runs = ENDS[:], RUNS[:]
        ENDS[0] = ENDS[1] = NEVER
        RUNS.clear()
        value = function(*arguments)
        holds = (ENDS[0], ENDS[1], tuple(RUNS))
        ENDS[:] = outer
        RUNS[:] = runs
        if holds == (NEVER, NEVER, ()):
            holds = None
        else:
            hold(holds)
        memory[key] = (value, holds)
    REMEMBERED[0] += 1
    return value


def hold(holds):
    lower(0, holds[0])
    lower(1, holds[1])
    RUNS.extend(holds[2])


# ---- recursion on a number

class Fold:
    """A function f with f .. zero = base .. and f .. (suc k) = step .. k (f .. k)."""

    def __init__(self, base, step, uses_place, is_kept):
        self.base = base
        self.step = step
        self.uses_place = uses_place
        self.is_kept = is_kept
        self.tables = {}
        MEMORIES.append(self.tables)

    def __call__(self, arguments, place):
        pieces = self.pieces_of(arguments)
        if type(place) is not Line:
            return self.value_at(pieces, arguments, place)
        if (place.fold, place.loop) not in ((1, 0), (0, 1)):
            return self.value_at(pieces, arguments, only_start(place))
        start, last, value, slope = self.piece_from(pieces, arguments, place.start)
        lower(0 if place.fold else 1, last - place.start + 1)
        if not slope:
            return value
        return value + slope * (place - start)

    def pieces_of(self, arguments):
        """What is known of the function at these arguments: pieces of places at which it is even."""
        if not self.is_kept:
            return [(0, 0, self.base(*arguments), 0)]
        keys = tuple(map(key_of, arguments))
        if any(map(is_symbolic, keys)):
            return [(0, 0, self.base(*arguments), 0)]
        pieces = self.tables.get(keys)
        if pieces is None:
            pieces = self.tables[keys] = [(0, 0, self.base(*arguments), 0)]
        return pieces

    def value_at(self, pieces, arguments, place):
        while pieces[-1][1] < place:
            self.extend(pieces, arguments, pieces[-1][1] + 1 < place)
        low, high = 0, len(pieces)
        while high - low > 1:
            middle = (low + high) // 2
            if pieces[middle][0] <= place:
                low = middle
            else:
                high = middle
        start, last, value, slope = pieces[low]
        return value + slope * (place - start) if slope else value

    def piece_from(self, pieces, arguments, place):
        """A piece that has the place and goes on from it as far as is known."""
        self.value_at(pieces, arguments, place)
        if pieces[-1][1] == place:
            self.extend(pieces, arguments, True)
        for start, last, value, slope in reversed(pieces):
            if start <= place:
                return start, last, value, slope

    def extend(self, pieces, arguments, further):
        """The next place, or with `further` a whole piece behind the last one."""
        place, value = pieces[-1][1], self.last_value(pieces)
        after = self.step(*arguments, place, value)
        slope = 0
        if type(value) is int and type(after) is int:
            slope = after - value
        elif key_of(after) is not key_of(value):
            further = False
        further = further and FOLLOWS[0]
        if further and not self.uses_place and not slope:
            pieces.append((place, NEVER, value, 0))
            return
        if further and not any(map(is_symbolic, map(key_of, arguments))):
            with Stretch(0) as stretch:
                then = self.step(*arguments, line(place, 1, 0), value + slope * line(0, 1, 0) if slope else value)
            wanted = line(after, slope, 0) if slope else after
            if then is wanted or key_of(then) is key_of(wanted) or type(then) is int and then == wanted:
                pieces.append((place, place + stretch.end, value, slope))
                return
        pieces.append((place + 1, place + 1, after, 0))

    @staticmethod
    def last_value(pieces):
        start, last, value, slope = pieces[-1]
        return value + slope * (last - start) if slope else value


class Again:
    """The arguments with which a loop goes on."""
    __slots__ = ("arguments",)

    def __init__(self, *arguments):
        self.arguments = arguments


def slopes_between(before, after):
    """By how much each number rises from one state to the next, where nothing else changes; None where it does."""
    found = []
    for x, y in zip(before, after):
        if type(x) is int and type(y) is int:
            found.append(y - x)
        elif isinstance(x, Rec) and type(x) is type(y):
            inner = slopes_between([getattr(x, name) for name in x.fields], [getattr(y, name) for name in x.fields])
            if inner is None:
                return None
            found.append(inner)
        elif x is y or key_of(x) is key_of(y):
            found.append(0)
        else:
            return None
    return found


def further(state, slopes, steps):
    """A state so many steps further on."""
    moved = []
    for x, slope in zip(state, slopes):
        if isinstance(slope, list):
            inner = further([getattr(x, name) for name in x.fields], slope, steps)
            moved.append(updated(x, **dict(zip(x.fields, inner))))
        else:
            moved.append(x + slope * steps if slope else x)
    return moved


class Loop:
    """A function f with f .. zero .. = base .., and f .. (suc k) .. either a value or f .. k .. of the next state."""

    def __init__(self, base, step, place):
        self.base = base
        self.step = step
        self.place = place

    def __call__(self, arguments):
        state = list(arguments)
        while True:
            if state[self.place] == 0:
                return self.base(*state)
            after = self.step(*state)
            if type(after) is not Again:
                return after
            after = list(after.arguments)
            if FOLLOWS[0] and not ACTIVE[1]:
                after = self.jumped(state, after)
            state = after

    def jumped(self, before, state):
        """A state as far on as the loop goes on evenly."""
        counted = self.place
        slopes = slopes_between(before[:counted] + before[counted + 1:], state[:counted] + state[counted + 1:])
        if slopes is None or not any(slope if not isinstance(slope, list) else any(slope) for slope in slopes):
            return state
        left = state[counted]
        slopes.insert(counted, -1)
        one = line(0, 0, 1)
        with Stretch(1) as stretch:
            moving = further(state, slopes, one)
            then = self.step(*moving)
        if type(then) is not Again:
            return state
        wanted = further(moving, slopes, 1)
        if any(key_of(x) is not key_of(y) and not (type(x) is int and x == y) for x, y in zip(then.arguments, wanted)):
            return state
        steps = self.steps_of(stretch, left)
        return further(state, slopes, steps)

    @staticmethod
    def steps_of(stretch, left):
        """How many steps a stretch has, where so many are left: a number, or a line."""
        most = stretch.end if type(left) is Line else min(stretch.end, left)
        if type(left) is Line and left.fold != 1:
            most = min(most, only_start(left))
        if not stretch.found_runs:
            return left if most == NEVER else most
        least = min(stretch.found_runs)
        if least >= most:
            return most
        if type(left) is Line and left.start < least:
            return most if most != NEVER else only_start(left)
        lower(0, most - least + 1)
        return line(least, 1, 0)
