# A sort by views: pairs of neighbours are put in order, those that begin at even places in one turn,
# those that begin at odd places in the next. After as many turns as elements all are in order.
import numpy as np


#pythran export sort(int64[])
#pythran export sort(int64[::])
def sort(a):
    """Sorts in place."""
    for turn in range(len(a)):
        first = turn % 2
        left = a[first:-1:2]
        right = a[first + 1::2]
        lesser = np.minimum(left, right)
        right[:] = np.maximum(left, right)
        left[:] = lesser


#pythran export is_sorted(int64[])
#pythran export is_sorted(int64[::])
def is_sorted(a):
    return np.all(a[:-1] <= a[1:])
