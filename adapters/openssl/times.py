"""The time of --now: seconds since 1970, or a time of RFC 3339."""
import datetime
import re

from words import misused

TIME = re.compile("([0-9]{4})-([0-9]{2})-([0-9]{2})[Tt]([0-9]{2}):([0-9]{2}):([0-9]{2})(?:[.][0-9]+)?"
                  "(?:[Zz]|([+-])([0-9]{2}):([0-9]{2}))")
EPOCH = datetime.date(1970, 1, 1).toordinal()
CYCLE = 146097  # the days of 400 years


def seconds_at(year, month, day, hour, minute, second, offset):
    """Seconds since 1970 of a time that is this many minutes before UTC. A leap second, 60, is the last of a month, and
    counts as the one after it, as in POSIX. Python has no year 0, whose days are those of the year 400."""
    days = datetime.date(year or 400, month, day).toordinal()
    if hour > 23 or minute > 59 or second > 60:
        raise ValueError("hour, minute or second is out of range")
    seconds = ((days * 24 + hour) * 60 + minute - offset) * 60 + second
    if second == 60 and (seconds % 86400 != 0 or datetime.date.fromordinal(seconds // 86400).day != 1):
        raise ValueError("no month ends with this second")
    return seconds - (EPOCH if year else EPOCH + CYCLE) * 86400


def seconds_of(text):
    """Seconds since 1970, from such a number or a time of RFC 3339 section 5.6; a fraction of a second is cut off."""
    if re.fullmatch("0|[1-9][0-9]{0,18}", text):
        return int(text)
    match = TIME.fullmatch(text)
    if match is None:
        misused(f"--now takes a time of RFC 3339 as 2023-12-14T00:00:00Z, or seconds since 1970, and not {text}")
    hours, minutes = int(match[8] or 0), int(match[9] or 0)
    try:
        if hours > 23 or minutes > 59:
            raise ValueError("the offset from UTC is out of range")
        offset = (hours * 60 + minutes) * (-1 if match[7] == "-" else 1)
        return seconds_at(*[int(match[place]) for place in range(1, 7)], offset)
    except (OverflowError, ValueError) as error:
        return misused(f"--now: there is no time {text}: {error}")
