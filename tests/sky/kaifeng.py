"""True new moons and winter solstices, and the register days on which they fall at Kaifeng. Moments are ephem's days of
UT; civil days run from midnight to midnight of local mean time."""
import math

import ephem

EAST = 114.35  # degrees
EPHEM_DAY_0 = 2415020.0  # the Julian Date from which ephem counts days


def civil_day(moment):
    return math.floor(moment + EPHEM_DAY_0 + 0.5 + EAST / 360)


def new_moons(first_day, last_day):
    """The moments of the true new moons, from some before a register day to some after another."""
    moments = [ephem.next_new_moon(first_day - EPHEM_DAY_0 - 50)]
    while civil_day(moments[-1]) < last_day + 50:
        moments.append(ephem.next_new_moon(moments[-1] + 20))
    return moments


def solstice_day(year):
    """The day of the true winter solstice that opens a year; it falls in the common year before."""
    return civil_day(ephem.next_winter_solstice(ephem.Date((year - 1, 6, 1))))


def delta_t(day):
    """How many seconds UT is behind dynamical time, as ephem takes it."""
    return ephem.delta_t(day - EPHEM_DAY_0)
