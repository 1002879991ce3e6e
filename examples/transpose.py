# Transposed views. `m.T` copies nothing: it is the same buffer, read by columns.


#pythran export turn(int64[:,:])
#pythran export turn(int64[::,::])
def turn(m):
    """Transposes a square matrix in place. Of one that isn't square it is a ValueError."""
    m[:] = m.T


#pythran export symmetric(int64[:,:])
#pythran export symmetric(int64[::,::])
def symmetric(m):
    """Adds the transposed matrix in place, and returns the trace."""
    m += m.T
    trace = 0
    for i in range(m.shape[0]):
        trace += m[i, i]
    return trace


#pythran export columns(int64[:,:])
#pythran export columns(int64[::,::])
def columns(m):
    """The transposed matrix, and its last row from the end."""
    flipped = m.T
    return flipped, flipped[-1, ::-1]
