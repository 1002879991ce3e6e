# Histograms. `count` trusts its values to be numbers of bins, from the end where they are below 0;
# `spread` sorts any values into bins of one width, and a width of 0 ends it.
import numpy as np


#pythran export count(int64[], int64)
#pythran export count(int64[::], int64)
def count(values, bins):
    """How often each number of a bin occurs. A number that is no bin is an IndexError."""
    counts = np.zeros(bins, dtype=np.int64)
    for i in range(len(values)):
        counts[values[i]] += 1
    return counts


#pythran export spread(int64[], int64, int64, int64)
#pythran export spread(int64[::], int64, int64, int64)
def spread(values, low, width, bins):
    """Counts for `bins` bins of `width` from `low` on, and how many values lie in none."""
    counts = np.zeros(bins, dtype=np.int64)
    outside = 0
    for i in range(len(values)):
        place = (values[i] - low) // width
        if place >= 0 and place < bins:
            counts[place] += 1
        else:
            outside += 1
    return counts, outside
