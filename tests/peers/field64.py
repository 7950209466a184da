"""The field of 64 elements, for tools and examples that use no code of the program.

The elements are polynomials over GF(2) modulo x^6 + x + 1. An element is a number below 64; its bit k is the
coefficient of x^k. x is also called alpha."""


def times(a: int, b: int) -> int:
    product = 0
    for bit in range(6):
        if b >> bit & 1:
            product ^= a << bit
    for bit in range(10, 5, -1):
        if product >> bit & 1:
            product ^= 0b1000011 << (bit - 6)
    return product


def powers() -> list[int]:
    """The powers of x from 0 to 62: all elements except 0."""
    found = [1]
    while len(found) < 63:
        found.append(times(found[-1], 2))
    return found


POWERS = powers()
LOGARITHMS = {element: exponent for exponent, element in enumerate(POWERS)}


def power(exponent: int) -> int:
    return POWERS[exponent % 63]


def inverse(a: int) -> int:
    """The multiplicative inverse of an element; 0 has none."""
    return POWERS[-LOGARITHMS[a] % 63]
