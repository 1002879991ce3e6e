# Own functions: fractions in lowest terms, with tops and bottoms in two arrays. Functions that no note
# exports take the types of the arguments that they are called with. 0 over 0 has no lowest terms: the
# division by 0 ends the kernel, and what was stored before stays.


def gcd(a, b, turns):
    """The greatest common divisor by Euclid. Two numbers of 64 bits take less than 96 turns."""
    for turn in range(turns):
        if b != 0:
            rest = a % b
            a = b
            b = rest
    return abs(a)


def reduced(top, bottom):
    divisor = gcd(top, bottom, 96)
    return top // divisor


#pythran export common(int64[])
#pythran export common(int64[::])
def common(numbers):
    """The greatest common divisor of all numbers; 0 where there is none but 0."""
    divisor = 0
    for i in range(len(numbers)):
        divisor = gcd(divisor, numbers[i], 96)
    return divisor


#pythran export lowest(int64[], int64[])
#pythran export lowest(int64[::], int64[::])
def lowest(tops, bottoms):
    """Brings each fraction to its lowest terms, in place, and returns how many changed."""
    changed = 0
    for i in range(len(tops)):
        top = reduced(tops[i], bottoms[i])
        bottom = reduced(bottoms[i], tops[i])
        if top != tops[i]:
            changed += 1
        tops[i] = top
        bottoms[i] = bottom
    return changed
