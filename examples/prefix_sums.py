# Prefix sums in place, by doubling: once each element holds the sum of the `step` elements up to it,
# adding the array to itself, moved by `step`, makes that twice as many.
# The two slices overlap. What is read is what stood there before the statement.


#pythran export accumulate(int64[])
#pythran export accumulate(int64[::])
def accumulate(a):
    """Replaces each element by the sum of all elements up to it."""
    step = 1
    for turn in range(len(a)):
        if step < len(a):
            a[step:] += a[:-step]
            step += step


#pythran export differences(int64[])
#pythran export differences(int64[::])
def differences(a):
    """Undoes `accumulate`: each element less the one before it."""
    a[1:] -= a[:-1]
