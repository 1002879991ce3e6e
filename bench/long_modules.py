"""Texts of long modules, of a given number of tokens, in three shapes. All of each is typed; `entry` does nothing."""
import io
import tokenize

ENTRY = "#pythran export entry(int64)\ndef entry(n):\n    return n\n"
KERNELS = 32
UNCOUNTED = (tokenize.COMMENT, tokenize.NL)


def count_tokens(text):
    """The number of tokens, ends of lines, of blocks and of the text among them, by Python's own tokenizer."""
    return sum(token.type not in UNCOUNTED for token in tokenize.generate_tokens(io.StringIO(text).readline))


def filled(most, head, part, tail):
    """A text with as many parts as there may be with the given number of tokens."""
    bare = count_tokens(head(0) + tail(0))
    each = (count_tokens(head(128) + "".join(map(part, range(128))) + tail(128)) - bare) / 128
    number = int((most - bare) / each)
    return head(number) + "".join(map(part, range(number))) + tail(number)


def many_functions(most):
    """Short functions, each called once, by one of a few kernels."""
    def part(number):
        return f"def f{number}(a, n):\n    t = a[n] + n * {number}\n    a[n] = t % 7\n    return t\n"

    def kernels(number):
        texts = []
        for kernel in range(KERNELS):
            body = "".join(f"    s += f{k}(a, n)\n" for k in range(kernel, number, KERNELS))
            note = f"#pythran export k{kernel}(int64[], int64)\n"
            texts.append(f"{note}def k{kernel}(a, n):\n    s = 0\n{body}    return s\n")
        return "".join(texts)
    return filled(most, lambda number: ENTRY, part, kernels)


def many_statements(most):
    """One kernel of many statements on few names."""
    def part(number):
        return f"    x = x * {number} + a[y]\n    y = x & 15\n"
    head = ENTRY + "#pythran export k(int64[], int64)\ndef k(a, n):\n    x = n\n    y = n\n"
    return filled(most, lambda number: head, part, lambda number: "    return x\n")


def many_names(most):
    """One kernel in which each statement binds a name of its own."""
    def part(number):
        return f"    v{number + 1} = v{number} * {number} + n\n"
    head = ENTRY + "#pythran export k(int64)\ndef k(n):\n    v0 = n\n"
    return filled(most, lambda number: head, part, lambda number: f"    return v{number}\n")


SHAPES = {"functions": many_functions, "statements": many_statements, "names": many_names}
