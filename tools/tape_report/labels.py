"""Labels: their numbers in the day, and the frames a second of their counts."""
from fractions import Fraction

SECONDS_A_DAY = 86_400
# Frames a second of each count, and how many labels a day has.
FRAMES = {"24": 24, "25": 25, "30": 30, "30d": 30}
LABELS_A_DAY = {"24": 24 * SECONDS_A_DAY, "25": 25 * SECONDS_A_DAY, "30": 30 * SECONDS_A_DAY, "30d": 2_589_408}
# Drop-frame counting leaves two labels out of each minute, but not of each tenth one.
DROPPED, MINUTE, TEN_MINUTES = 2, 1798, 17_982
NTSC = Fraction(1000, 1001)
# The frame rates that have names, and how they are written.
RATES = {
    "23.976": 24 * NTSC,
    "24": Fraction(24),
    "25": Fraction(25),
    "29.97": 30 * NTSC,
    "30": Fraction(30),
}


def system_of(rate: Fraction) -> int:
    """The system whose labels a rate has."""
    return round(rate)


def name_of(rate: Fraction) -> str:
    return next((name for name, value in RATES.items() if value == rate), f"{float(rate):.3f}")


def number_of(count: str, label: str) -> int:
    """How many labels of the count come before the label in the day."""
    hours, minutes, seconds, frames = (int(it) for it in label.replace(";", ":").split(":"))
    whole = 60 * hours + minutes
    number = (60 * whole + seconds) * FRAMES[count] + frames
    return number - DROPPED * (whole - whole // 10) if count == "30d" else number


def label_of(count: str, number: int) -> str:
    """The label of that number of the day."""
    number %= LABELS_A_DAY[count]
    if count == "30d":
        tens, rest = divmod(number, TEN_MINUTES)
        number += DROPPED * (9 * tens + max(0, rest - DROPPED) // MINUTE)
    seconds, frames = divmod(number, FRAMES[count])
    mark = ";" if count == "30d" else ":"
    return f"{seconds // 3600:02}:{seconds // 60 % 60:02}:{seconds % 60:02}{mark}{frames:02}"
