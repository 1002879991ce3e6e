"""The calls that examples/check makes of each module in examples/, over random arrays of several sizes and views.

`CASES` has a function for each module, by the module's name. It takes a `Draw` and gives cases: arrays with 0, 1 and
more elements; views of one buffer that overlap, are turned around or have gaps; extents that don't fit; divisors of 0.
"""
from kernel_calls import Case

LEAST, GREATEST = -2**63, 2**63 - 1
SIZES = (0, 1, 2, 3, 8, 33)
SHAPES = ((0, 0), (0, 3), (3, 0), (1, 1), (1, 5), (2, 2), (3, 4), (9, 7))
# Views of a vector of any length.
WHOLE, BACK, EVEN, ODD, TAIL, HEAD = "@A", "@A[::-1]", "@A[::2]", "@A[1::2]", "@A[1:]", "@A[:-1]"
VECTORS = (WHOLE, BACK, EVEN, "@A[-2::-3]", TAIL)
# Views of rank 2 of an array of rank 3, which aren't consecutive, or go backwards; the last is a plain one.
MATRICES = ("@A[:,0]", "@A[:,:,0]", "@A[::-1,:,1]", "@A[0,::-1,::2]", "@A[1]")


class Draw:
    """Random arrays; the same seed gives the same ones."""

    def __init__(self, np, seed):
        self.np = np
        self.random = np.random.default_rng(seed)

    def ints(self, shape, low=-9, high=9):
        return self.random.integers(low, high, shape, dtype=self.np.int64, endpoint=True)

    def words(self, shape):
        """Numbers of all sizes, the least and the greatest among them."""
        array = self.ints(shape, LEAST, GREATEST) >> self.ints(shape, 0, 63)
        edges = self.np.array([LEAST, GREATEST, -1, 0, 1], dtype=self.np.int64)
        chosen = self.random.random(shape) < 0.2
        return self.np.where(chosen, self.random.choice(edges, shape), array)

    def bools(self, shape):
        return self.random.random(shape) < 0.4

    def by_columns(self, array):
        """The same array with its elements column by column, which its file then has too."""
        return self.np.asfortranarray(array)


def vectors(draw, kernel, parameter, make, **others):
    """A kernel of one vector over each size, and over each view of a vector of 33 elements."""
    for size in SIZES:
        yield Case(kernel, {"A": make(size)}, {parameter: WHOLE, **others})
    for view in VECTORS:
        yield Case(kernel, {"A": make(33)}, {parameter: view, **others})


def matrices(draw, kernel, parameter, make, **others):
    """A kernel of one matrix over each shape, by rows and by columns, and over views of an array of rank 3."""
    for shape in SHAPES:
        yield Case(kernel, {"A": make(shape)}, {parameter: "@A", **others})
    yield Case(kernel, {"A": draw.by_columns(make((5, 8)))}, {parameter: "@A", **others})
    for view in MATRICES:
        yield Case(kernel, {"A": make((4, 6, 5))}, {parameter: view, **others})


def pairs(kernel, first, second, make, **others):
    """A kernel of two vectors: two buffers of each size, and views of one buffer that share places or don't."""
    for size in SIZES:
        yield Case(kernel, {"A": make(size), "B": make(size)}, {first: "@A", second: "@B", **others})
    for one, other in ((WHOLE, WHOLE), (WHOLE, BACK), (BACK, WHOLE), (TAIL, HEAD), (HEAD, TAIL), (EVEN, ODD),
                       ("@A[:12]", "@A[-1:11:-1]"), ("@A[4:20:2]", "@A[2:26:3]"), ("@A[::-2]", "@A[1::2]")):
        yield Case(kernel, {"A": make(24)}, {first: one, second: other, **others})


def add(draw):
    # Its type takes consecutive elements alone.
    for size in SIZES:
        yield Case("add", {"A": draw.words(size), "B": draw.words(size)}, {"a": "@A", "b": "@B"})
    for one, other in ((WHOLE, WHOLE), (TAIL, HEAD), (HEAD, "@A[1:2]"), ("@A[:0]", "@A[-1:]"), (WHOLE, TAIL)):
        yield Case("add", {"A": draw.words(24)}, {"a": one, "b": other})
    yield Case("add", {"A": draw.words((3, 8))}, {"a": "@A[1]", "b": "@A[-1]"})
    yield Case("add", {"A": draw.words(3), "B": draw.words(4)}, {"a": "@A", "b": "@B"})
    yield Case("add", {"A": draw.words(1), "B": draw.words(4)}, {"a": "@A", "b": "@B"})


def broadcast(draw):
    for rows, columns in ((0, 0), (0, 4), (1, 1), (1, 5), (5, 1), (6, 7)):
        buffers = {"A": draw.words((rows, 1)), "B": draw.words(columns)}
        yield Case("distances", buffers, {"column": "@A", "row": "@B"})
        buffers = {"T": draw.words((rows, columns)), **buffers}
        yield Case("add_outer", buffers, {"table": "@T", "column": "@A", "row": "@B"})
    yield Case("distances", {"A": draw.words((4, 6))}, {"column": "@A[:,2:3]", "row": "@A[1]"})
    yield Case("distances", {"A": draw.words((4, 6))}, {"column": "@A[::-1,::2]", "row": "@A[3,::-2]"})
    yield Case("distances", {"A": draw.words((4, 6))}, {"column": "@A", "row": "@A[0,1:]"})
    for column, row in (("@A[:,0:1]", "@A[0]"), ("@A[::-1,3:4]", "@A[2,::-1]"), ("@A[0:1,0:1]", "@A[:,1]"),
                        ("@A[1:2]", "@A[1]"), ("@A[:3,:1]", "@A[0]"), ("@A[:,:1]", "@A[0,:3]")):
        yield Case("add_outer", {"A": draw.words((4, 4))}, {"table": "@A", "column": column, "row": row})
    for points, centres in ((0, 1), (1, 1), (7, 3), (3, 0), (0, 0)):
        buffers = {"A": draw.ints((points, 2)), "B": draw.ints((centres, 2))}
        yield Case("nearest", buffers, {"points": "@A", "centres": "@B"})
    yield Case("nearest", {"A": draw.ints((9, 5))}, {"points": "@A[:,::2]", "centres": "@A[::-4,2:]"})
    yield Case("nearest", {"A": draw.ints((9, 5))}, {"points": "@A[:,::2]", "centres": "@A[::-4,3:]"})


def checksum(draw):
    for kernel in ("crc32", "adler32", "fnv1a"):
        yield from vectors(draw, kernel, "data", lambda size: draw.ints(size, 0, 255))
        yield Case(kernel, {"A": draw.words(12)}, {"data": "@A"})
        yield Case(kernel, {"A": draw.words((3, 8))}, {"data": "@A[:,2]"})


def convolve(draw):
    for image, taps in (((0, 0), (0, 0)), ((1, 1), (1, 1)), ((5, 6), (3, 3)), ((5, 6), (5, 1)), ((7, 3), (0, 2)),
                        ((2, 4), (3, 1)), ((2, 4), (4, 1)), ((2, 4), (1, 6)), ((4, 4), (2, 2))):
        yield Case("convolve", {"A": draw.words(image), "B": draw.words(taps)}, {"image": "@A", "taps": "@B"})
    for image, taps in (("@A", "@A[:3,:3]"), ("@A[::-1,::2]", "@A[::3,::-4]"), ("@A[1:]", "@A[:2,5:]")):
        yield Case("convolve", {"A": draw.words((8, 9))}, {"image": image, "taps": taps})
    buffers = {"A": draw.by_columns(draw.words((6, 5))), "B": draw.by_columns(draw.words((2, 3)))}
    yield Case("convolve", buffers, {"image": "@A", "taps": "@B"})


def edit_distance(draw):
    yield from pairs("distance", "a", "b", lambda size: draw.ints(size, 0, 3))
    yield Case("distance", {"A": draw.ints(9, 0, 1), "B": draw.ints(4, 0, 1)}, {"a": "@A", "b": "@B"})
    yield Case("distance", {"A": draw.ints(0), "B": draw.ints(5)}, {"a": "@A", "b": "@B"})
    yield Case("distance", {"A": draw.ints(5), "B": draw.ints(0)}, {"a": "@A", "b": "@B"})


def histogram(draw):
    yield from vectors(draw, "count", "values", lambda size: draw.ints(size, -5, 4), bins=5)
    yield from vectors(draw, "count", "values", lambda size: draw.ints(size, 0, 9), bins=9)
    yield Case("count", {"A": draw.ints(3)}, {"values": "@A", "bins": -1})
    yield Case("count", {"A": draw.ints(3)}, {"values": "@A", "bins": 0})
    yield from vectors(draw, "spread", "values", draw.words, low=-7, width=1000, bins=6)
    for low, width, bins in ((0, 0, 4), (-9, 4, 5), (9, -4, 5), (LEAST, GREATEST, 3), (0, 1, 0)):
        yield Case("spread", {"A": draw.ints(20)}, {"values": "@A", "low": low, "width": width, "bins": bins})
    yield Case("spread", {"A": draw.ints(0)}, {"values": "@A", "low": 0, "width": 0, "bins": 2})


def integer_roots(draw):
    yield from vectors(draw, "roots", "numbers", draw.words)
    yield from vectors(draw, "roots", "numbers", lambda size: draw.ints(size, 0, 3037000499) ** 2)
    yield Case("roots", {"A": draw.np.arange(-2, 40)}, {"numbers": "@A"})


def life(draw):
    yield from matrices(draw, "after", "alive", draw.bools)
    for generations in (0, 1, 4, -1):
        yield from matrices(draw, "play", "alive", draw.bools, generations=generations)


def lowest_terms(draw):
    yield from vectors(draw, "common", "numbers", lambda size: 6 * draw.ints(size, -50, 50))
    yield Case("common", {"A": draw.words(6)}, {"numbers": "@A"})
    yield Case("common", {"A": draw.np.array([LEAST, LEAST])}, {"numbers": "@A"})
    yield from pairs("lowest", "tops", "bottoms", lambda size: draw.ints(size, 1, 60))
    yield from pairs("lowest", "tops", "bottoms", lambda size: draw.ints(size, -3, 3))
    yield Case("lowest", {"A": draw.words(9), "B": draw.words(9)}, {"tops": "@A", "bottoms": "@B"})
    zero = draw.np.array([6, 8, 0, 9])
    yield Case("lowest", {"A": zero, "B": zero + zero}, {"tops": "@A", "bottoms": "@B"})
    yield Case("lowest", {"A": draw.ints(4, 1, 9), "B": draw.ints(3, 1, 9)}, {"tops": "@A", "bottoms": "@B"})


def matmul(draw):
    shapes = (((0, 0), (0, 0)), ((0, 3), (3, 2)), ((2, 0), (0, 3)), ((1, 1), (1, 1)), ((3, 4), (4, 5)),
              ((3, 4), (2, 5)), ((3, 2), (4, 5)), ((4, 1), (1, 4)))
    for kernel in ("by_loops", "by_rows"):
        for a, b in shapes:
            yield Case(kernel, {"A": draw.words(a), "B": draw.words(b)}, {"a": "@A", "b": "@B"})
        for a, b in (("@A", "@A"), ("@A[::-1]", "@A[:,::-1]"), ("@A[:,::2]", "@A[1::2,:3]"), ("@A[2:4]", "@A[:,3:]")):
            yield Case(kernel, {"A": draw.words((6, 6))}, {"a": a, "b": b})
        buffers = {"A": draw.by_columns(draw.ints((2, 3))), "B": draw.by_columns(draw.ints((3, 4)))}
        yield Case(kernel, buffers, {"a": "@A", "b": "@B"})


def pool(draw):
    shapes = ((0, 0, 0, 0), (0, 2, 4, 4), (1, 1, 2, 2), (2, 3, 4, 6), (1, 2, 3, 4), (1, 2, 4, 5), (2, 1, 1, 1),
              (2, 2, 0, 2))
    for kernel in ("greatest", "channel_sums"):
        for shape in shapes:
            yield Case(kernel, {"A": draw.words(shape)}, {"batch": "@A"})
        for view in ("@A[::-1]", "@A[:,::2,::-1]", "@A[:,:,1:,1:]", "@A[:,1:2,:4,::-2]"):
            yield Case(kernel, {"A": draw.words((2, 3, 6, 8))}, {"batch": view})
        yield Case(kernel, {"A": draw.by_columns(draw.words((2, 2, 4, 4)))}, {"batch": "@A"})


def prefix_sums(draw):
    for kernel in ("accumulate", "differences"):
        yield from vectors(draw, kernel, "a", draw.words)
        yield Case(kernel, {"A": draw.words((5, 7))}, {"a": "@A[:,3]"})
        yield Case(kernel, {"A": draw.words((5, 7))}, {"a": "@A[2,::-1]"})
        yield Case(kernel, {"A": draw.words(300)}, {"a": "@A"})


def run_lengths(draw):
    yield from vectors(draw, "encode", "a", lambda size: draw.ints(size, 0, 1))
    yield from vectors(draw, "encode", "a", lambda size: draw.words(size))
    yield from pairs("decode", "values", "lengths", lambda size: draw.ints(size, 0, 4))
    yield Case("decode", {"A": draw.ints(3), "B": draw.ints(2, 1, 3)}, {"values": "@A", "lengths": "@B"})
    yield Case("decode", {"A": draw.ints(2), "B": draw.np.array([3, -4])}, {"values": "@A", "lengths": "@B"})
    yield Case("decode", {"A": draw.ints(3), "B": draw.np.array([3, -2, 2])}, {"values": "@A", "lengths": "@B"})


def smooth(draw):
    for rounds in (0, 1, 3, -2):
        yield from vectors(draw, "smooth", "a", draw.words, rounds=rounds)


def sort(draw):
    yield from vectors(draw, "sort", "a", draw.words)
    yield Case("sort", {"A": draw.ints((6, 4))}, {"a": "@A[::-1,1]"})
    yield from vectors(draw, "is_sorted", "a", draw.ints)
    yield from vectors(draw, "is_sorted", "a", draw.np.arange)


def stencil(draw):
    for rounds in (0, 1, 5, -1):
        yield from matrices(draw, "settle", "plate", lambda shape: draw.ints(shape, -100, 100), rounds=rounds)
    yield from matrices(draw, "settle", "plate", draw.words, rounds=2)


def threshold(draw):
    for level in (-3, 0, GREATEST):
        yield from matrices(draw, "binary", "image", draw.words, level=level)
    yield from matrices(draw, "stretch", "image", lambda shape: draw.ints(shape, 0, 255))
    yield Case("stretch", {"A": draw.np.full((3, 3), 7)}, {"image": "@A"})
    yield Case("stretch", {"A": draw.words((4, 4))}, {"image": "@A"})
    for image, other, mask in (((0, 2), (0, 2), (0, 2)), ((3, 4),) * 3, ((3, 4), (1, 4), (3, 1)),
                               ((3, 4), (3, 4), (2, 4)), ((1, 4), (3, 4), (3, 4)), ((2, 2), (2, 2), (1, 1))):
        buffers = {"A": draw.words(image), "B": draw.words(other), "M": draw.bools(mask)}
        yield Case("paste", buffers, {"image": "@A", "other": "@B", "mask": "@M"})
    for image, other in (("@A[1:]", "@A[:-1]"), ("@A[:-1]", "@A[1:]"), ("@A[:3]", "@A[2::-1]"),
                         ("@A[:3]", "@A[1:4,::-1]")):
        buffers = {"A": draw.words((4, 5)), "M": draw.bools((3, 5))}
        yield Case("paste", buffers, {"image": image, "other": other, "mask": "@M"})


def transpose(draw):
    for kernel in ("turn", "symmetric", "columns"):
        yield from matrices(draw, kernel, "m", draw.words)
        for view in ("@A[:5]", "@A[::-1,:6]", "@A[1:,4::-1]", "@A[:4,::2]"):
            yield Case(kernel, {"A": draw.words((6, 8))}, {"m": view})


def views(draw):
    yield from pairs("blend", "to", "other", draw.words)
    # NumPy 1.24 stores a view into an overlapping one that runs the same way without a temporary. Where their steps
    # differ it then reads elements that it has stored, against its own rule, so it can't be asked what is right.
    yield from (case for case in pairs("swap", "a", "b", draw.words) if case.arguments["a"] != "@A[4:20:2]")
    yield from pairs("interleave", "a", "b", draw.words)
    for kernel, first, second in (("blend", "to", "other"), ("swap", "a", "b"), ("interleave", "a", "b")):
        for one, other in (("@A", "@A[:1]"), ("@A[:1]", "@A"), ("@A", "@A[2:]"), ("@A[:3]", "@A[:2]"),
                           ("@A[:2]", "@A[:3]")):
            yield Case(kernel, {"A": draw.words(8)}, {first: one, second: other})
        yield Case(kernel, {"A": draw.words((5, 5))}, {first: "@A[2]", second: "@A[:,2]"})
        yield Case(kernel, {"A": draw.words((5, 5))}, {first: "@A[::-1,1]", second: "@A[1]"})
    for start, stop, step in ((1, 6, 2), (-1, -9, -3), (0, 0, 1), (5, 2, 1), (2, 5, -1), (LEAST, GREATEST, 1),
                              (GREATEST, LEAST, -1), (0, 8, GREATEST), (3, 4, 0)):
        yield Case("part", {"A": draw.words(9)}, {"a": "@A", "start": start, "stop": stop, "step": step})
        yield Case("part", {"A": draw.words(9)}, {"a": "@A[::-2]", "start": start, "stop": stop, "step": step})


CASES = {function.__name__: function for function in (
    add, broadcast, checksum, convolve, edit_distance, histogram, integer_roots, life, lowest_terms, matmul, pool,
    prefix_sums, run_lengths, smooth, sort, stencil, threshold, transpose, views)}
