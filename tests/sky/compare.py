"""Counts of what agrees and what does not."""
import bisect
from collections import Counter, namedtuple

from pages import Month

Days = namedtuple("Days", "count same early late more mean")
Numbers = namedtuple("Numbers", "months other leap leap_too")
Citations = namedtuple("Citations", "count right day_off month_off refused")


def nearest(days, day):
    """The place in rising days of the one nearest to a day."""
    after = bisect.bisect(days, day)
    return min(after - 1, after, key=lambda place: abs(days[place] - day))


def tally_days(differences):
    """How many reckoned days are the true ones, a day early, a day late, or more than a day off."""
    counts = Counter(differences)
    count, same, early, late = len(differences), counts[0], counts[-1], counts[1]
    return Days(count, same, early, late, count - same - early - late, sum(differences) / count)


def tally_heads(months, true_heads):
    return tally_days([month.head - true_heads[nearest(true_heads, month.head)] for month in months])


def true_months(true_heads, qi):
    """The months from true head to true head, from the first that holds a middle qi of the almanac on; those number
    them, by their days."""
    qi_days = [middle.day for middle in qi]
    months = []
    bearer = None
    for head, following in zip(true_heads, true_heads[1:]):
        place = bisect.bisect_left(qi_days, head)
        holds = place < len(qi) and qi_days[place] < following
        bearer = qi[place] if holds else bearer
        if bearer:
            months.append(Month(head, following - head, bearer.year, bearer.number + ("" if holds else "*")))
    return months


def tally_numbers(months, true):
    """How many months bear another number or leap mark than the true month nearest to them."""
    heads = [month.head for month in true]
    same = [month for month in months if true[nearest(heads, month.head)][2:] == month[2:]]
    return Numbers(len(months), len(months) - len(same), len(leap(months)), len(leap(same)))


def leap(months):
    return [month for month in months if month.number.endswith("*")]


def by_date(month, true, day):
    """The place in the reckoned month, from 0, of a day cited by its place in the true month."""
    return day - true.head


def by_name(month, true, day):
    """The place in the reckoned month, from 0, of the first day from its head on with the sixty-day name of a day."""
    return (day - month.head) % 60


def outcome(month, true, day, place_of):
    """How far from a day is the one that is found, or that none is."""
    if month is None:
        return "refused"
    place = place_of(month, true, day)
    return abs(month.head + place - day) if place < month.days else "refused"


def tally_citations(months, true, place_of):
    """What becomes of the days of true months that are cited by year, true month, and date or name."""
    reckoned = {(month.year, month.number): month for month in months}
    counts = Counter(
        outcome(reckoned.get((month.year, month.number)), month, day, place_of)
        for month in true
        for day in range(month.head, month.head + month.days)
    )
    count, right, day_off, refused = sum(counts.values()), counts[0], counts[1], counts["refused"]
    return Citations(count, right, day_off, count - right - day_off - refused, refused)
