"""Words of Final Storage, and the listing call."""
from fractions import Fraction


def start_word(array):
    return 64512 + array


def rounded(a):
    """Halves away from zero, of a fraction that is not negative."""
    return (2 * a.numerator + a.denominator) // (2 * a.denominator)


def value_word(x):
    for places in (3, 2, 1, 0):
        digits = rounded(abs(Fraction(x)) * 10 ** places)
        if digits <= 6999:
            break
    else:
        places, digits = 0, 6999
    negative = x < 0 and digits > 0
    return (32768 if negative else 0) + 8192 * places + digits


def fields(w):
    """Sign, places and digits."""
    return w // 32768, w % 32768 // 8192, w % 8192


def has_value(w):
    """Some number has this value word: digits are as few as the places allow."""
    negative, places, digits = fields(w)
    if digits > 6999:
        return False
    if digits == 0:
        return places == 3 and not negative
    return value_word(Fraction(-digits if negative else digits, 10 ** places)) == w


def arrays(words):
    """The arrays that are shown, oldest first, each its start word and value words."""
    found = []
    for w in words:
        if w >= 64512:
            found.append([w])
        elif found:
            found[-1].append(w)
    return [a for a in found if all(has_value(w) for w in a[1:])]


def by_age(state, ring):
    n = len(ring)
    return [ring[(state.position - state.filled + i) % n] for i in range(state.filled)]


def item(state, ring, k, j):
    """('refused', number), ('none',), ('id', id) or ('value', sign, places, digits)."""
    if not 1 <= len(ring) <= 32768:
        return ("refused", 31)
    if state.position >= len(ring) or state.filled > len(ring):
        return ("refused", 32)
    shown = arrays(by_age(state, ring))
    if k >= len(shown) or j >= len(shown[k]):
        return ("none",)
    if j == 0:
        return ("id", shown[k][0] - 64512)
    return ("value",) + fields(shown[k][j])
