# The sum of two arrays.
#pythran export add(int[], int[])
def add(a, b):
    return a + b
