"""Reads wall clock times of SMIL: instants such as 2026-11-30T08:00:00+01:00, and what stands in `wallclock(..)`.

Instants are milliseconds from 1970-01-01T00:00:00Z, fractions rounded down.
"""

import re
from datetime import date, datetime, timedelta

from smil_clock import HORIZON

DAY = 86400000
LAST = (date.max.toordinal() - date(1970, 1, 1).toordinal()) * DAY
ZONE = r"Z|[+-](?:[01][0-9]|2[0-3]):[0-5][0-9]"
TIME = r"(?P<hours>[01][0-9]|2[0-3]):(?P<minutes>[0-5][0-9])(?::(?P<seconds>[0-5][0-9])(?:\.(?P<fraction>[0-9]+))?)?"
MOMENT = re.compile(rf"(?:(?P<date>[0-9]{{4}}-[0-9]{{2}}-[0-9]{{2}})(?:T(?P<dated>{TIME})(?P<zone>{ZONE})?)?)$")
TIME_ALONE = re.compile(rf"T?(?P<time>{TIME})(?P<zone>{ZONE})?$")
REPEATED = re.compile(r"R/([^/]+)/P(?:([0-9]{1,3})W|([0-9]{1,4})D|T([0-9]{1,5})H|T([0-9]{1,6})M)$")
PERIODS = (7 * DAY, DAY, DAY // 24, DAY // 1440)
ITEM = re.compile(r"wallclock\(([^)]*)\)[ \t]*(?:([+-])[ \t]*(\S+))?$")


def zone_milliseconds(zone):
    """How far a zone (`Z`, `+01:00`, or None for UTC) is ahead of UTC, in milliseconds."""
    if zone in (None, "Z"):
        return 0
    ahead = (int(zone[1:3]) * 60 + int(zone[4:6])) * 60000
    return -ahead if zone[0] == "-" else ahead


def moment_of(text):
    """The instant of a date, or of a date and a time, in milliseconds; without a zone UTC is meant.

    None where the text is neither, or the calendar doesn't have the day.
    """
    match = MOMENT.match(text)
    if not match:
        return None
    try:
        day = date.fromisoformat(match["date"]).toordinal() - date(1970, 1, 1).toordinal()
    except ValueError:
        return None
    if match["dated"] is None:
        return day * DAY
    seconds = (int(match["hours"]) * 60 + int(match["minutes"])) * 60 + int(match["seconds"] or 0)
    fraction = int((match["fraction"] or "")[:3].ljust(3, "0"))
    return day * DAY + seconds * 1000 + fraction - zone_milliseconds(match["zone"])


def is_moment(text):
    """Whether what stands in `wallclock(..)` is a date, a time, both, or one that comes again and again."""
    again = REPEATED.match(text.strip())
    text = again[1] if again else text
    return moment_of(text.strip()) is not None or TIME_ALONE.match(text.strip()) is not None


class Start:
    """The instant that moment 0 of a presentation is, as `load NAME at INSTANT` says it.

    Raises ValueError where the text is no date and time with seconds and a zone.
    """

    def __init__(self, text):
        match = MOMENT.match(text)
        if not match or match["seconds"] is None or match["zone"] is None or moment_of(text) is None:
            raise ValueError(f'"{text}" is no instant such as 2026-11-30T08:00:00+01:00')
        self.text = text
        self.date = match["date"]
        self.zone = match["zone"]
        self.moment = moment_of(text)

    def completed(self, written):
        """What stands in `wallclock(..)`, with a date and a zone where it needs one.

        A time without a date is of the day of the start; one without a zone is local time, which is
        that of the start.
        """
        text = written.strip()
        alone = TIME_ALONE.match(text)
        if alone:
            return f"{self.date}T{alone['time']}{alone['zone'] or self.zone}"
        match = MOMENT.match(text)
        if match and match["zone"] is None and zone_milliseconds(self.zone) != 0:
            return f"{match['date']}T{match['dated'] or '00:00'}{self.zone}"
        return text

    def next_times(self, written, most):
        """The times of `R/MOMENT/PERIOD`, such as R/2026-01-01T09:00/P1D, as what stands in `wallclock(..)`.

        From the last one that isn't after the start, at most `most`, within the horizon. None where there is none,
        or it can't be read.
        """
        match = REPEATED.match(written.strip())
        first = moment_of(self.completed(match[1])) if match else None
        period = sum(int(count) * length for count, length in zip(match.groups()[1:], PERIODS) if count) if match else 0
        if first is None or period == 0:
            return None
        first += max(0, (self.moment - first) // period) * period
        latest = min(self.moment + HORIZON, LAST)
        times = [first + number * period for number in range(most) if first + number * period <= latest]
        return [written_moment(time) for time in times] or None


def written_moment(moment):
    """An instant in milliseconds, not after the year 9999, as what stands in `wallclock(..)`, in UTC."""
    return (datetime(1970, 1, 1) + timedelta(milliseconds=moment)).isoformat() + "Z"
