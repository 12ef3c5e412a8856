"""binary32 numbers: exact results, rounded once, halves to the even last bit. A number is a Python float that binary32 has."""
import math
import struct
from fractions import Fraction


def from_bits(b):
    return struct.unpack(">f", struct.pack(">I", b))[0]


def shown(x):
    """The 8 hexadecimal digits of the bits, or the word nan."""
    if math.isnan(x):
        return "nan"
    return "%08x" % struct.unpack(">I", struct.pack(">f", x))[0]


def is_plus_zero(x):
    return x == 0 and math.copysign(1.0, x) > 0


def rounded(q):
    """The nearest binary32 of a fraction that is not 0."""
    sign = -1.0 if q < 0 else 1.0
    a = abs(q)
    e = a.numerator.bit_length() - a.denominator.bit_length()
    if Fraction(2) ** e > a:
        e -= 1
    unit = Fraction(2) ** (max(e, -126) - 23)
    n = a / unit
    low = n.numerator // n.denominator
    rest = n - low
    if rest > Fraction(1, 2) or (rest == Fraction(1, 2) and low % 2 == 1):
        low += 1
    value = low * unit
    if value >= Fraction(2) ** 128:
        return sign * math.inf
    return math.copysign(float(value), sign)


def both_finite(x, y):
    return math.isfinite(x) and math.isfinite(y)


def add(x, y):
    if not both_finite(x, y) or (x == 0 and y == 0):
        return x + y
    q = Fraction(x) + Fraction(y)
    return 0.0 if q == 0 else rounded(q)


def sub(x, y):
    return add(x, -y)


def mul(x, y):
    if not both_finite(x, y) or x == 0 or y == 0:
        return x * y
    return rounded(Fraction(x) * Fraction(y))


def div(x, y):
    if not both_finite(x, y):
        raise ValueError("only finite numbers are divided")
    sign = math.copysign(1.0, x) * math.copysign(1.0, y)
    if y == 0:
        return math.nan if x == 0 else sign * math.inf
    if x == 0:
        return sign * 0.0
    return rounded(Fraction(x) / Fraction(y))


def stored(x):
    """'What would be stored and isn't finite is stored as -99,999; a location or sum that isn't finite is read so.'"""
    return x if math.isfinite(x) else -99999.0
