# The matrix product by three loops, and by two loops with one array operation for each row.
# Both read one element at a time by its subscripts: a row that is missing is an IndexError.
import numpy as np


#pythran export by_loops(int64[:,:], int64[:,:])
#pythran export by_loops(int64[::,::], int64[::,::])
def by_loops(a, b):
    out = np.zeros((a.shape[0], b.shape[1]), dtype=np.int64)
    for i in range(a.shape[0]):
        for k in range(a.shape[1]):
            for j in range(b.shape[1]):
                out[i, j] += a[i, k] * b[k, j]
    return out


#pythran export by_rows(int64[:,:], int64[:,:])
#pythran export by_rows(int64[::,::], int64[::,::])
def by_rows(a, b):
    out = np.zeros((a.shape[0], b.shape[1]), dtype=np.int64)
    for i in range(a.shape[0]):
        for k in range(a.shape[1]):
            out[i] += a[i, k] * b[k]
    return out
