# Run lengths: a text with long runs of one value, as pairs of a value and how often it stands there.
# The arrays that are returned are the parts of longer ones that were filled.
import numpy as np


#pythran export encode(int64[])
#pythran export encode(int64[::])
def encode(a):
    values = np.zeros(len(a), dtype=np.int64)
    lengths = np.zeros(len(a), dtype=np.int64)
    runs = 0
    for i in range(len(a)):
        if i == 0 or a[i] != a[i - 1]:
            values[runs] = a[i]
            runs += 1
        lengths[runs - 1] += 1
    return values[:runs], lengths[:runs]


#pythran export decode(int64[], int64[])
#pythran export decode(int64[::], int64[::])
def decode(values, lengths):
    out = np.zeros(np.sum(lengths), dtype=np.int64)
    end = 0
    for i in range(len(values)):
        for k in range(lengths[i]):
            out[end] = values[i]
            end += 1
    return out
