# Views as arguments: `[::]` in a type takes any view, with gaps, turned around, or one that shares its
# buffer with another argument. Each store does what it would do if its right side were copied first.
import numpy as np


#pythran export blend(int64[], int64[])
#pythran export blend(int64[::], int64[::])
def blend(to, other):
    """Adds twice the other view to a view, in place."""
    to[:] = to + 2 * other


#pythran export swap(int64[], int64[])
#pythran export swap(int64[::], int64[::])
def swap(a, b):
    """Exchanges the elements of two views."""
    kept = a.copy()
    a[:] = b
    b[:] = kept


#pythran export interleave(int64[], int64[])
#pythran export interleave(int64[::], int64[::])
def interleave(a, b):
    """The elements of both in turn, and the same from the end."""
    out = np.zeros(len(a) + len(b), dtype=np.int64)
    out[::2] = a
    out[1::2] = b
    return out, out[::-1]


#pythran export part(int64[], int64, int64, int64)
#pythran export part(int64[::], int64, int64, int64)
def part(a, start, stop, step):
    """A slice with given bounds. A step of 0 is a ValueError."""
    return a[start:stop:step]
