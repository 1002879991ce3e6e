# Broadcasting: a column of n rows against a row of m columns gives a table of n by m.
# Extents fit where they are equal or one of them is 1; others are a ValueError.
import numpy as np


#pythran export distances(int64[:,:], int64[])
#pythran export distances(int64[::,::], int64[::])
def distances(column, row):
    """How far each number of the column, of shape (n, 1), is from each number of the row."""
    return np.abs(column - row)


#pythran export add_outer(int64[:,:], int64[:,:], int64[])
#pythran export add_outer(int64[::,::], int64[::,::], int64[::])
def add_outer(table, column, row):
    """Adds the product of the column and the row to the table, in place: its shape never grows."""
    table += column * row


#pythran export nearest(int64[:,:], int64[:,:])
#pythran export nearest(int64[::,::], int64[::,::])
def nearest(points, centres):
    """For each point, a row of coordinates, the first centre with the least distance by blocks."""
    found = np.zeros(points.shape[0], dtype=np.int64)
    for i in range(points.shape[0]):
        least = np.sum(np.abs(centres[0] - points[i]))
        for k in range(1, centres.shape[0]):
            away = np.sum(np.abs(centres[k] - points[i]))
            if away < least:
                least = away
                found[i] = k
    return found
