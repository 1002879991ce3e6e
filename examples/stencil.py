# A five-point stencil: a plate of temperatures, whose border is held, settles round by round.
# Each round mixes every inner cell with the four cells around it. The five slices of the grid
# are views of one buffer that overlap; the right side is done before anything is stored.
import numpy as np


#pythran export settle(int64[:,:], int64)
#pythran export settle(int64[::,::], int64)
def settle(plate, rounds):
    """Runs the rounds in place, and returns by how much the last one moved all cells together."""
    moved = 0
    for turn in range(rounds):
        inner = plate[1:-1, 1:-1]
        around = plate[:-2, 1:-1] + plate[2:, 1:-1] + plate[1:-1, :-2] + plate[1:-1, 2:]
        settled = (4 * inner + around) // 8
        moved = np.sum(np.abs(settled - inner))
        inner[:] = settled
    return moved
