"""Bandwidths, delays, losses and times as Emulab's files write them, and as an NS text here has them."""
import re
from decimal import ROUND_HALF_UP, Decimal

NUMBER = r"([0-9]+\.?[0-9]*(?:[eE][+-]?[0-9]{1,2})?|\.[0-9]+(?:[eE][+-]?[0-9]{1,2})?)"
LETTERS = {"": 1, "k": 10 ** 3, "m": 10 ** 6, "g": 10 ** 9}
# The microseconds of a unit of time. A number without a unit is in seconds.
SECONDS = {"": 10 ** 6, "s": 10 ** 6, "sec": 10 ** 6, "ms": 1000, "msec": 1000, "m": 1000, "us": 1, "usec": 1, "u": 1,
           "ns": Decimal("0.001"), "nsec": Decimal("0.001"), "n": Decimal("0.001")}
PLAIN = r"[0-9]+(?:\.[0-9]{1,9})?"
# Words that an NS text here takes as they are, by what they measure, if the number is whole in its smallest unit.
TAKEN = {"bandwidth": re.compile(PLAIN + r"(?:[kKmMgG](?:b|bps)?|b|bps)?"), "delay": re.compile(PLAIN + r"(?:s|ms|us)?"),
         "loss": re.compile(PLAIN), "time": re.compile(r"[0-9]+(?:\.[0-9]{1,6})?")}
GREATEST = {"bandwidth": 10 ** 9, "delay": 10 ** 7, "loss": 10 ** 6, "time": 10 ** 12}


class Quantity:
    """A word for a quantity: its number in the smallest unit (kbps, microseconds, millionths), its text, and what was changed of it."""

    def __init__(self, kind, word, value, told=None):
        rounded = int(value.to_integral_value(ROUND_HALF_UP))
        self.number = max(rounded, 1) if kind == "bandwidth" and value > 0 else rounded
        self.told = told
        if Decimal(self.number) == value and TAKEN[kind].fullmatch(word):
            self.text = word
        else:
            self.text = written(kind, self.number)
        if Decimal(self.number) != value and not told:
            self.told = f"{self.text} in place of {word}: {kind}s are whole numbers of {UNITS[kind]}"


UNITS = {"bandwidth": "kbps", "delay": "microseconds", "loss": "millionths", "time": "microseconds"}


def written(kind, number):
    """Writes a number in its smallest unit as a word."""
    if kind == "bandwidth":
        return f"{number // 1000}Mb" if number % 1000 == 0 else f"{number}kb"
    if kind == "delay":
        return f"{number // 1000}ms" if number % 1000 == 0 else f"{number}us"
    whole, rest = divmod(number, 10 ** 6)
    return f"{whole}.{rest:06d}".rstrip("0").rstrip(".")


def split(word):
    """Gives the number and the unit of a word, or None."""
    found = re.fullmatch(NUMBER + r"\s*([A-Za-z%]*)", word.strip())
    return found and (Decimal(found[1]), found[2])


def bandwidth(word, unit=1):
    """Reads a bandwidth; a number without a unit counts in `unit` bits per second. None where it is none."""
    if word.strip() == "*":
        return Quantity("bandwidth", "100Mb", Decimal(100_000), "100Mb in place of *: each link has a bandwidth of its own here")
    parts = split(word)
    found = parts and re.fullmatch(r"([kKmMgG]?)(b|B|bps|Bps|)", parts[1])
    if not found:
        return None
    bits = parts[0] * (LETTERS[found[1].lower()] if parts[1] else unit)
    if found[2].startswith("B"):
        quantity = Quantity("bandwidth", "", bits * 8 / 1000)
        quantity.told = f"{quantity.text} in place of {word}, which is in bytes"
    else:
        quantity = Quantity("bandwidth", word if parts[1] or unit == 1 else "", bits / 1000)
    return quantity if 1 <= quantity.number <= GREATEST["bandwidth"] else None


def delay(word, unit=10 ** 6):
    """Reads a delay; a number without a unit counts in `unit` microseconds. None where it is none."""
    parts = split(word)
    if not parts or parts[1] not in SECONDS:
        return None
    micros = parts[0] * (SECONDS[parts[1]] if parts[1] else unit)
    quantity = Quantity("delay", word if parts[1] or unit == 10 ** 6 else "", micros)
    return quantity if quantity.number <= GREATEST["delay"] else None


def loss(word):
    """Reads a loss: a fraction, or a number of percent. None where it is none."""
    parts = split(word)
    if not parts or parts[1] not in ("", "%"):
        return None
    quantity = Quantity("loss", word, parts[0] * (10 ** 4 if parts[1] else 10 ** 6))
    return quantity if quantity.number <= GREATEST["loss"] else None


def time(word):
    """Reads a time in seconds. None where it is none."""
    parts = split(word)
    if not parts or parts[1] not in ("", "s"):
        return None
    quantity = Quantity("time", word, parts[0] * 10 ** 6)
    return quantity if quantity.number <= GREATEST["time"] else None
