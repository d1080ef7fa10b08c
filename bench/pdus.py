"""The PDUs of MMS that the benches send and wait for, made by a few lines that share nothing with the program."""


def element(tag, content):
    size = len(content)
    if size < 128:
        return bytes([tag, size]) + content
    if size < 256:
        return bytes([tag, 0x81, size]) + content
    return bytes([tag, 0x82, size >> 8, size & 255]) + content


def number(value):
    return value.to_bytes((value + (value < 0)).bit_length() // 8 + 1, "big", signed=True)


def named(item):
    """The object name of an item of the domain BAY1."""
    return element(0xA1, element(0x1A, b"BAY1") + element(0x1A, item))


def variable(item):
    return element(0x30, element(0xA0, named(item)))


def request(invoke, service):
    return element(0xA0, element(2, number(invoke)) + service)


def response(invoke, service):
    return element(0xA1, element(2, number(invoke)) + service)


def write(invoke, items, values):
    return request(invoke, element(0xA5, element(0xA0, b"".join(map(variable, items))) + element(0xA0, b"".join(values))))


def written(invoke, count):
    """The reply to a write of so many values, each of which was accepted."""
    return response(invoke, element(0xA5, bytes([0x81, 0]) * count))


def read(invoke, items):
    return request(invoke, element(0xA4, element(0xA1, element(0xA0, b"".join(map(variable, items))))))


def was_read(invoke, values):
    return response(invoke, element(0xA4, element(0xA1, b"".join(values))))


def define(invoke, item, members):
    return request(invoke, element(0xAB, named(item) + element(0xA0, b"".join(map(variable, members)))))


def defined(invoke):
    return response(invoke, element(0x8B, b""))


def delete(invoke, item):
    return request(invoke, element(0xAD, bytes([0x80, 1, 0]) + element(0xA1, named(item))))


def deleted(invoke):
    """The reply to a deletion of one data set, which was there and went."""
    return response(invoke, element(0xAD, bytes([0x80, 1, 1, 0x81, 1, 1])))


def failed(invoke, error_class, code):
    """The error of a confirmed request."""
    return element(0xA2, element(0x80, number(invoke)) + element(0xA2, element(0xA0, element(0x80 + error_class, number(code)))))


ERROR = element(0x30, element(0xA0, element(0x80, b"LastApplError")))


def information(variables, values):
    """An information report of these variables and their values."""
    return element(0xA3, element(0xA0, element(0xA0, b"".join(variables)) + element(0xA0, b"".join(values))))


def last_error(written, command, cause):
    """The value of LastApplError of a command that was written to this variable of BAY1."""
    origin = element(0xA2, element(0x85, number(command.category)) + element(0x89, command.identity))
    parts = element(0x8A, b"BAY1/" + written) + element(0x85, number(1)) + origin + element(0x86, number(command.count))
    return element(0xA2, parts + element(0x85, number(cause)))
