"""f32 arithmetic, each operation rounded once.

Each operation is done on doubles and the result rounded to f32. That equals one rounding: a sum,
difference or product of two f32 values is exact in a double or far from a rounding boundary of
f32, and so is a quotient (a double has more than twice the digits of an f32, and two more)."""
import math
import struct


def rounded(value):
    """The nearest f32, ties to even, infinite past the largest."""
    try:
        return struct.unpack("<f", struct.pack("<f", value))[0]
    except OverflowError:
        return math.copysign(math.inf, value)


def from_bits(bits):
    return struct.unpack("<f", struct.pack("<I", bits))[0]


def to_bits(value):
    return struct.unpack("<I", struct.pack("<f", value))[0]


def add(left, right):
    return rounded(left + right)


def subtract(left, right):
    return rounded(left - right)


def multiply(left, right):
    return rounded(left * right)


def divide(left, right):
    """A quotient; the divisor is not 0."""
    return rounded(left / right)


def total(values):
    """The sum in order, from 0."""
    result = 0.0
    for value in values:
        result = add(result, value)
    return result
