"""Reads clock values of SMIL, and the places of clips in their media, as milliseconds."""

import re
from decimal import Decimal

METRICS = {"h": 3600000, "min": 60000, "s": 1000, "ms": 1, "": 1000}
HORIZON = 10 ** 12

CLOCK = (r"(?:[0-9]+:[0-5][0-9]:[0-5][0-9](?:\.[0-9]+)?|[0-5][0-9]:[0-5][0-9](?:\.[0-9]+)?"
         r"|[0-9]+(?:\.[0-9]+)?(?:h|min|s|ms)?)")


def milliseconds(clock):
    """The milliseconds of a clock value, rounded down."""
    if ":" in clock:
        seconds = Decimal(0)
        for part in clock.split(":"):
            seconds = seconds * 60 + Decimal(part)
        return int(seconds * 1000)
    number, metric = re.match(r"([0-9.]+)([a-z]*)$", clock).groups()
    return int(Decimal(number) * METRICS[metric])


def is_count(value):
    """Whether a repeatCount can have the value: a number above 0, to three places behind the point."""
    match = re.match(r"([0-9]{1,9})(?:\.([0-9]+))?$", value)
    return bool(match) and int(match[1] + (match[2] or "")[:3].ljust(3, "0")) > 0


def mended_clock(value):
    """A clock value as SMIL spells it, where it is one in a common other spelling; else the value."""
    if re.match(r"[0-9]:[0-5][0-9](\.[0-9]+)?$", value):
        return "0" + value
    if re.match(r"\.[0-9]+(h|min|s|ms)?$", value):
        return "0" + value
    match = re.match(r"([0-9]+(?:\.[0-9]+)?) +(h|min|s|ms)$", value)
    return match[1] + match[2] if match else value


def clip_moment(value):
    """The milliseconds of a clipBegin or clipEnd, None where it can't be read."""
    form, _, rest = value.strip().rpartition("=")
    if form.startswith("smpte"):
        return smpte_moment(form, rest)
    rest = mended_clock(rest)
    if form not in ("", "npt") or not re.match(CLOCK + "$", rest) or milliseconds(rest) > HORIZON:
        return None
    return milliseconds(rest)


def smpte_moment(form, rest):
    """The milliseconds of hours:minutes:seconds:frames.

    smpte-25 has 25 frames a second. smpte and smpte-30-drop have 30000 in 1001 seconds, and leave
    out the numbers of two frames in each minute that isn't a tenth.
    """
    match = re.match(r"([0-9]+):([0-5][0-9]):([0-5][0-9])(?::([0-9]{2})(?:\.[0-9]+)?)?$", rest)
    if form not in ("smpte", "smpte-25", "smpte-30-drop") or not match:
        return None
    hours, minutes, seconds, frames = (int(part or 0) for part in match.groups())
    minutes += 60 * hours
    if form == "smpte-25":
        return (60 * minutes + seconds) * 1000 + frames * 40
    return ((60 * minutes + seconds) * 30 + frames - 2 * (minutes - minutes // 10)) * 1001 // 30
