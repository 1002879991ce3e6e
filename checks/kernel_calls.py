"""Calls of a kernel through the program, and of the same text through NumPy, for examples/check and bench/run.

What NumPy made of a call is written as the report that the program is to give, so the two are compared byte for byte.
"""
import contextlib
import importlib.util
import os
import subprocess
import sys
import traceback
import warnings
from dataclasses import dataclass

SYSTEM_PYTHON = "/usr/bin/python3"
FAULTS = (ZeroDivisionError, IndexError, ValueError)
# What NumPy says of a division of two scalars by 0, which is no fault there; a division of arrays has other words.
SCALAR_DIVISION_BY_ZERO = r"divide by zero encountered in (scalar|\w+_scalars)"


def numpy_or_end(script):
    """NumPy, of this Python or of the system's, which then takes this one's place; or ends with status 2."""
    sys.dont_write_bytecode = True
    try:
        import numpy
        return numpy
    except ImportError:
        pass
    if os.path.realpath(sys.executable) != os.path.realpath(SYSTEM_PYTHON) and has_numpy(SYSTEM_PYTHON):
        os.execv(SYSTEM_PYTHON, [SYSTEM_PYTHON, *sys.argv])
    print(f"{script}: NumPy is missing: neither {sys.executable} nor {SYSTEM_PYTHON} has it. Install it, for instance "
          "by `apt-get install python3-numpy` or `pip install numpy`", file=sys.stderr)
    sys.exit(2)


def has_numpy(python):
    try:
        return subprocess.run([python, "-c", "import numpy"], stderr=subprocess.DEVNULL).returncode == 0
    except OSError:
        return False


def program_or_end(script, path):
    """The whole path of the program; or ends with status 2."""
    whole = os.path.abspath(path)
    if not (os.path.isfile(whole) and os.access(whole, os.X_OK)):
        print(f"{script}: no program at {path}", file=sys.stderr)
        sys.exit(2)
    return whole


@dataclass
class Case:
    """A call of a kernel: arrays by their names, and for each parameter a word, or a view as `@A[::-1]`."""
    kernel: str
    buffers: dict
    arguments: dict


@dataclass
class Wanted:
    """What a call is to give by NumPy: its status, its report without the fault's column, and the final buffers."""
    status: int
    report: str
    buffers: dict


def load_module(path, name="kernel_module"):
    """The module of this path, read by CPython from its text, or compiled under the given name."""
    spec = importlib.util.spec_from_file_location(name, path)
    module = importlib.util.module_from_spec(spec)
    spec.loader.exec_module(module)
    return module


@contextlib.contextmanager
def scalar_divisions_fault():
    """NumPy's scalar divisions by 0 are raised, and nothing else is said of any operation."""
    with warnings.catch_warnings():
        warnings.simplefilter("ignore")
        warnings.filterwarnings("error", SCALAR_DIVISION_BY_ZERO, RuntimeWarning)
        yield


def view_of(text, buffers):
    """The view that `@A[::-1]` names, by NumPy's own reading of the subscripts."""
    name, bracket, subscripts = text[1:].partition("[")
    return eval(f"array[{subscripts}", {"array": buffers[name]}) if bracket else buffers[name]


def as_argument(np, value, buffers):
    if isinstance(value, str):
        return view_of(value, buffers)
    return np.bool_(value) if isinstance(value, bool) else np.int64(value)


def value_text(np, value):
    """A value as a report has it: its kind, its shape where it is an array, its elements."""
    array = np.asarray(value)
    kind = {"b": "bool", "i": "int64"}[array.dtype.kind]
    shape = [] if array.ndim == 0 else [str(array.shape)]
    return " ".join([kind, *shape, *map(str, array.ravel().tolist())])


def returned_lines(np, value):
    if value is None:
        return ["return none"]
    return ["return " + value_text(np, part) for part in (value if isinstance(value, tuple) else (value,))]


def fault_line(fault, path):
    """The fault with its line: the innermost place of the module's text in which it came up."""
    kind = "ZeroDivisionError" if isinstance(fault, RuntimeWarning) else type(fault).__name__
    places = [frame.lineno for frame in traceback.extract_tb(fault.__traceback__) if frame.filename == path]
    return f"fault {kind} {places[-1]}:"


def by_numpy(np, path, case):
    """The call by NumPy, over buffers of its own. What is no fault of the language goes on as an exception."""
    buffers = {name: array.copy(order="C") for name, array in case.buffers.items()}
    function = getattr(load_module(path), case.kernel)
    try:
        with scalar_divisions_fault():
            values = {name: as_argument(np, value, buffers) for name, value in case.arguments.items()}
            status, lines = 0, returned_lines(np, function(**values))
    except (*FAULTS, RuntimeWarning) as fault:
        status, lines = 1, [fault_line(fault, path)]
    lines += [f"buffer {name} {value_text(np, array)}" for name, array in buffers.items()]
    return Wanted(status, "".join(line + "\n" for line in lines), buffers)


def without_column(report):
    """A report with the column of its fault left out, which NumPy doesn't tell."""
    first, feed, rest = report.partition("\n")
    return first[:first.rindex(":") + 1] + feed + rest if first.startswith("fault ") else report


def buffer_word(name, array):
    """A buffer as an item in the words."""
    dimensions = ",".join(map(str, array.shape))
    return f"buf:{name}({dimensions})=" + ",".join(map(str, array.ravel().tolist()))


def argument_words(case):
    return [f"{name}={value}" for name, value in case.arguments.items()]


def elements(np, texts):
    """The elements of a buffer in the words: truth values, or numbers, also where there are none."""
    if texts and texts[0] in ("True", "False"):
        return np.array([text == "True" for text in texts])
    return np.array([int(text) for text in texts], dtype=np.int64)


def case_of(np, kernel, items):
    """The case that items with `buf:` and parameters stand for. They must be well written."""
    case = Case(kernel, {}, {})
    for name, value in (item.split("=", 1) for item in items):
        if name.startswith("buf:"):
            name, bracket, dimensions = name.removeprefix("buf:").partition("(")
            array = elements(np, value.split(",") if value else [])
            case.buffers[name] = array.reshape([int(d) for d in dimensions[:-1].split(",")]) if bracket else array
        elif value in ("True", "False"):
            case.arguments[name] = value == "True"
        else:
            case.arguments[name] = value if value.startswith("@") else int(value)
    return case


def run_program(program, words, folder):
    """The status, the output and the error output of one call."""
    done = subprocess.run([program, *words], cwd=folder, capture_output=True, text=True, stdin=subprocess.DEVNULL)
    return done.returncode, done.stdout, done.stderr
