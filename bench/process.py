"""One call of a kernel as a whole process of Python, for bench/run: it loads the arrays, calls, writes the report that
the program writes, and saves the arrays.

    process.py numpy|cpython|MODULE.so KERNEL [turns=N] [NAME=PATH:SAVED ..]

By `numpy` the kernel is that of kernels.py; by `cpython` that of plain.py over lists, and NumPy isn't loaded; by a
compiled module it is the module's own. Arrays are of int64, in C order.
"""
import ast
import importlib.util
import math
import pathlib
import struct
import sys
from array import array

HERE = pathlib.Path(__file__).resolve().parent
MAGIC = b"\x93NUMPY\x01\x00"


def module_of(path, name):
    spec = importlib.util.spec_from_file_location(name, path)
    module = importlib.util.module_from_spec(spec)
    spec.loader.exec_module(module)
    return module


def shape_text(shape):
    return f"({', '.join(map(str, shape))}{',' if len(shape) == 1 else ''})"


class ByNumPy:
    """Arrays are NumPy's."""

    def __init__(self):
        import numpy
        self.np = numpy

    def number(self, word):
        return self.np.int64(word)

    def load(self, path):
        return self.np.load(path)

    def save(self, path, value):
        self.np.save(path, value)

    def parts(self, value):
        """The shape and the numbers of an array."""
        return value.shape, value.ravel().tolist()


class ByLists:
    """An array is a list of numbers, a table a list of rows."""

    def number(self, word):
        return int(word)

    def load(self, path):
        with open(path, "rb") as file:
            if file.read(8) != MAGIC:
                sys.exit(f"{path}: not an array file of version 1.0")
            header = ast.literal_eval(file.read(*struct.unpack("<H", file.read(2))).decode("latin1"))
            numbers = array("q")
            numbers.frombytes(file.read())
        rows, *columns = header["shape"]
        numbers = numbers.tolist()
        return [numbers[i * columns[0]:(i + 1) * columns[0]] for i in range(rows)] if columns else numbers

    def save(self, path, value):
        shape, numbers = self.parts(value)
        header = f"{{'descr': '<i8', 'fortran_order': False, 'shape': {shape_text(shape)}, }}"
        header += " " * (-(len(MAGIC) + 2 + len(header) + 1) % 64) + "\n"
        with open(path, "wb") as file:
            file.write(MAGIC + struct.pack("<H", len(header)) + header.encode("latin1"))
            file.write(array("q", numbers).tobytes())

    def parts(self, value):
        if value and isinstance(value[0], list):
            return (len(value), len(value[0])), [number for row in value for number in row]
        return (len(value),), value


def main():
    how, kernel, *items = sys.argv[1:]
    arrays = ByLists() if how == "cpython" else ByNumPy()
    path = {"numpy": HERE / "kernels.py", "cpython": HERE / "plain.py"}.get(how, how)
    module = module_of(path, "kernels" if how in ("numpy", "cpython") else pathlib.Path(how).stem)
    items = [item.split("=", 1) for item in items]
    values = [arrays.number(text) if name == "turns" else arrays.load(text.partition(":")[0]) for name, text in items]
    result = getattr(module, kernel)(*values)
    sys.stdout.write(f"return int64 {result}\n")
    for (name, text), value in zip(items, values):
        if name != "turns":
            shape, numbers = arrays.parts(value)
            if math.prod(shape) != len(numbers):
                sys.exit(f"{name}: {len(numbers)} elements, and not {shape}")
            sys.stdout.write(f"buffer {name} int64 {shape_text(shape)} {' '.join(map(str, numbers))}\n")
            arrays.save(text.partition(":")[2], value)


main()
