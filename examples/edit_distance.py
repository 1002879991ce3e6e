# The edit distance of two texts, given as arrays of their letters' numbers: how many letters must
# be put in, taken out or changed to turn one into the other. Two rows of the table are kept.
import numpy as np


#pythran export distance(int64[], int64[])
#pythran export distance(int64[::], int64[::])
def distance(a, b):
    above = np.arange(len(b) + 1)
    row = np.zeros(len(b) + 1, dtype=np.int64)
    for i in range(len(a)):
        row[0] = i + 1
        for j in range(len(b)):
            changed = above[j]
            if a[i] != b[j]:
                changed += 1
            row[j + 1] = min(changed, 1 + min(above[j + 1], row[j]))
        above[:] = row
    return above[-1]
