# Conway's game of life on an array of bools. What lies beyond the edge is dead.
# A bool counts as 0 or 1 where it meets ints, so neighbours are counted by adding shifted windows.
import numpy as np


#pythran export after(bool[:,:])
#pythran export after(bool[::,::])
def after(alive):
    """The next generation, as a new array."""
    rows = alive.shape[0]
    columns = alive.shape[1]
    padded = np.zeros((rows + 2, columns + 2), dtype=np.int64)
    padded[1:-1, 1:-1] = alive
    near = np.zeros((rows, columns), dtype=np.int64)
    for i in range(3):
        for j in range(3):
            near += padded[i:i + rows, j:j + columns]
    # Each cell was counted in its own window too: a living one needs three or four, a dead one three.
    return (near == 3) | (alive & (near == 4))


#pythran export play(bool[:,:], int64)
#pythran export play(bool[::,::], int64)
def play(alive, generations):
    """Plays in place, and returns how many cells live at the end."""
    for turn in range(generations):
        alive[:] = after(alive)
    return np.sum(alive)
