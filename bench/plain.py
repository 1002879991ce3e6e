"""The kernels of bench/kernels.py over Python's own lists and numbers, as one would write them without NumPy.

A table is a list of rows. What isn't here can't be written without arrays in the same sense.
"""


def nothing(a, b):
    return len(a) + len(b)


def add(a, b):
    c = [x + y for x, y in zip(a, b)]
    return c[-1]


def long_expression(a, b):
    c = [(x + y) * 3 - (x & y) + min(x, 2 * y) - (y >> 1) for x, y in zip(a, b)]
    return c[-1]


def total(a, b):
    return sum([x * y for x, y in zip(a, b)])


def choose(a, b):
    a[:] = [x if x > y else y for x, y in zip(a, b)]
    return a[-1]


def scaled(a, b):
    b[:] = [(x + y * 2) & 7 for x, y in zip(a, b)]
    return b[-1]


def shifted(a, b):
    a[1:] = [x & y for x, y in zip(a[:-1], b[1:])]
    return a[-1]


def strided(a, b):
    a[::2] = [x & y for x, y in zip(a[::2], b[1::2])]
    return a[-2]


def turned(a, b):
    a[:] = b[::-1]
    return a[-1]


def nothing_of_table(m):
    return len(m) * len(m[0])


def outer(m):
    first = m[0][:]
    for row in m:
        row[:] = [min(row[0], y) for y in first]
    return m[-1][-1]


def five_points(m):
    rows = [[(up + down + left + right) // 4 for up, down, left, right in zip(above[1:], below[1:], row, row[2:])]
            for above, row, below in zip(m, m[1:], m[2:])]
    for row, inner in zip(m[1:], rows):
        row[1:-1] = inner
    return m[1][1]


def transposed(m):
    c = [[x + 1 for x in column] for column in zip(*m)]
    return c[-1][0]


def scalars(turns):
    state = 1
    for i in range(turns):
        state = (state * 31 + i) % 65521
    return state


def branches(turns):
    state = 1
    for i in range(turns):
        if state % 2 == 0:
            state = state >> 1
        else:
            state = (3 * state + i) & 1023
    return state


def stepped(state, i):
    return (state * 31 + i) % 65521


def calls(turns):
    state = 1
    for i in range(turns):
        state = stepped(state, i)
    return state


def elements(turns):
    a = list(range(64))
    for i in range(turns):
        a[i & 63] += a[(i * 7) & 63] & 255
    return a[63]


def small_arrays(turns):
    a = list(range(64))
    for i in range(turns):
        a[1:] = [(x + y) & 255 for x, y in zip(a[1:], a[:-1])]
    return a[63]
