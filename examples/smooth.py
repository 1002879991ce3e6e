# Rounds of a smoothing store, which reads the array that it writes.
import numpy as np

#pythran export smooth(int[::], int)
def smooth(a, rounds):
    total = 0
    for i in range(rounds):
        a[1:-1] = (a[:-2] + 2 * a[1:-1] + a[2:]) // 4
        total += np.sum(a)
    return total, a[::-1]
