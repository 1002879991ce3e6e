# The kernels that bench/run measures: the same text for the program, for CPython with NumPy and for Pythran.
# Those of arrays take two of one length, or a table, of numbers from 0 to 9, and return one number; what
# they leave in their arrays has one digit too, so all reports are as long as that of `nothing`.
# Those of loops take the number of turns.
import numpy as np


#pythran export nothing(int64[], int64[])
def nothing(a, b):
    return len(a) + len(b)


#pythran export add(int64[], int64[])
def add(a, b):
    c = a + b
    return c[-1]


#pythran export long_expression(int64[], int64[])
def long_expression(a, b):
    c = (a + b) * 3 - (a & b) + np.minimum(a, 2 * b) - (b >> 1)
    return c[-1]


#pythran export total(int64[], int64[])
def total(a, b):
    return np.sum(a * b)


#pythran export choose(int64[], int64[])
def choose(a, b):
    a[:] = np.where(a > b, a, b)
    return a[-1]


#pythran export scaled(int64[], int64[])
def scaled(a, b):
    b[:] = (a + b * 2) & 7
    return b[-1]


#pythran export shifted(int64[], int64[])
def shifted(a, b):
    a[1:] = a[:-1] & b[1:]
    return a[-1]


#pythran export strided(int64[], int64[])
def strided(a, b):
    a[::2] &= b[1::2]
    return a[-2]


#pythran export turned(int64[], int64[])
def turned(a, b):
    a[:] = b[::-1]
    return a[-1]


#pythran export nothing_of_table(int64[:,:])
def nothing_of_table(m):
    return m.size


#pythran export outer(int64[:,:])
def outer(m):
    m[:] = np.minimum(m[:, :1], m[0])
    return m[-1, -1]


#pythran export five_points(int64[:,:])
def five_points(m):
    m[1:-1, 1:-1] = (m[:-2, 1:-1] + m[2:, 1:-1] + m[1:-1, :-2] + m[1:-1, 2:]) // 4
    return m[1, 1]


#pythran export transposed(int64[:,:])
def transposed(m):
    c = m.T + 1
    return c[-1, 0]


#pythran export scalars(int64)
def scalars(turns):
    state = 1
    for i in range(turns):
        state = (state * 31 + i) % 65521
    return state


#pythran export branches(int64)
def branches(turns):
    state = 1
    for i in range(turns):
        if state % 2 == 0:
            state = state >> 1
        else:
            state = (3 * state + i) & 1023
    return state


def stepped(state, i):
    return (state * 31 + i) % 65521


#pythran export calls(int64)
def calls(turns):
    state = 1
    for i in range(turns):
        state = stepped(state, i)
    return state


#pythran export elements(int64)
def elements(turns):
    a = np.arange(64)
    for i in range(turns):
        a[i & 63] += a[(i * 7) & 63] & 255
    return a[63]


#pythran export small_arrays(int64)
def small_arrays(turns):
    a = np.arange(64)
    for i in range(turns):
        a[1:] = (a[1:] + a[:-1]) & 255
    return a[63]
