#!/usr/bin/env python3
"""Writes the drawer examples/drawer: the records of the columns below, one behind the other.

The shape is document 01's own sentence; nothing of the library is used."""
import os

COLUMNS = [
    [4, 2, 4, 2, 9],  # document 01's column
    [],  # a function that was never counted
    [1, 1, 100, 100, 10000, 9900, 100, 10000, 100, 100, 1, 1],  # two loops inside a loop
    [8, 7, 6, 5, 4, 3, 2, 1],
    [1, 2, 3, 4, 5, 6, 7, 8],
]


def shape(column):
    if not column:
        return ""
    p = column.index(min(column))  # the leftmost smallest entry
    return "(" + shape(column[:p]) + ")" + shape(column[p + 1 :])


def record(column):
    signs, n = shape(column), len(column)
    body = [sum(1 << k for k, sign in enumerate(signs[b : b + 8]) if sign == "(") for b in range(0, 2 * n, 8)]
    return bytes([0x52, 0x4D, n % 256, n // 256] + body)


if __name__ == "__main__":
    with open(os.path.join(os.path.dirname(os.path.abspath(__file__)), "drawer"), "wb") as out:
        out.write(b"".join(record(column) for column in COLUMNS))
