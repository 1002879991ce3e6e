# Integer square roots, one bit of the root a step, without a multiplication that could overflow.
import numpy as np


def root_of(number):
    """The greatest root whose square is at most the number; 0 for a number below 0."""
    root = 0
    rest = number
    for step in range(31, -1, -1):
        bit = 1 << (2 * step)
        trial = root + bit
        root = root >> 1
        if rest >= trial:
            rest -= trial
            root += bit
    return root


#pythran export roots(int64[])
#pythran export roots(int64[::])
def roots(numbers):
    """Puts the root of each number in its place, and returns which of them were squares."""
    exact = np.zeros(len(numbers), dtype=bool)
    for i in range(len(numbers)):
        root = root_of(numbers[i])
        exact[i] = root * root == numbers[i]
        numbers[i] = root
    return exact
