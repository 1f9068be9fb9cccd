#!/usr/bin/env python3
"""Prints the prices in a recording of frames of the example feed, with the library for C.

    prices.py LIBRARY SCHEMA < FRAMES      (LIBRARY is the shared object that tools/c-check makes)
"""

import ctypes
import struct
import sys
from ctypes import byref, c_bool, c_char_p, c_size_t, c_uint32, c_uint64, c_void_p, create_string_buffer

DONE, CLOSED, MEMORY, FILE, RULE, BODY, ROOM, ABSENT, LINE, MISFIT = range(10)
MESSAGE, FIELD, GROUP, DATA = range(4)
# The exponent of a price of the feed is the constant -4.
PLACES = 4


def members(name, **types):
    """A struct of the header."""
    return type(name, (ctypes.Structure,), {"_fields_": list(types.items())})


Report = members("Report", code=c_uint32, offset=c_size_t, length=c_size_t)
Handle = members("Handle", owned=c_void_p, is_open=c_bool)
Message = members("Message", message=c_size_t, version=c_uint32)
Part = members("Part", number=c_size_t, level=c_size_t)
Place = members("Place", message=c_size_t, group=c_size_t, field=c_size_t)
Step = members("Step", group=c_size_t, entry=c_size_t)
Field = members("Field", field=c_size_t, member=c_size_t)
Number = members("Number", is_there=c_bool, is_negative=c_bool, high=c_uint64, low=c_uint64)
# The steps to the root: none.
ROOT = (Step * 0)()


class Refused(Exception):
    """A schema or a body that is refused."""


class Schema:
    """An open schema. Use it in a `with` statement, which closes it."""

    def __init__(self, library, file):
        self.library = ctypes.CDLL(library)
        self.handle, self.report, self.path = Handle(), Report(), create_string_buffer(256)
        answer = self.call("sbe_open", file, self.path, byref(self.report))
        if answer in (FILE, RULE):
            raise Refused(f"{'S' if answer == FILE else 'C'}{self.report.code:02} at {self.reported_path()}")
        if answer != DONE:
            raise MemoryError

    def call(self, name, *values):
        """An export whose first argument is the schema. Bytes and buffers are passed with their lengths."""
        kinds, words = [c_void_p], [byref(self.handle)]
        for value in values:
            if isinstance(value, (bytes, ctypes.Array)):
                kinds += [c_char_p if isinstance(value, bytes) else c_void_p, c_size_t]
                words += [value, len(value)]
            else:
                kinds.append(c_size_t if isinstance(value, int) else c_void_p)
                words.append(value)
        function = getattr(self.library, name)
        function.restype, function.argtypes = c_uint32, kinds
        return function(*words)

    def reported_path(self):
        """The path that the last call reported."""
        return self.path.raw[: self.report.length].decode(errors="replace")

    def part(self, sort, level, name):
        """A message, or a part of a level, by its name."""
        part = Part()
        if self.call("sbe_find_part", sort, level, name, byref(part)) != DONE:
            raise KeyError(name)
        return part

    def message(self, body):
        """The message of a body."""
        message = Message()
        answer = self.call("sbe_validate", body, byref(message), self.path, byref(self.report))
        if answer == BODY:
            raise Refused(f"F{self.report.code:02} at byte {self.report.offset}, {self.reported_path()}")
        if answer != DONE:
            raise MemoryError
        return message.message

    def number(self, body, steps, field):
        """The number of a field, or None: of an entry, or of the root if there is no step."""
        number = Number()
        answer = self.call("sbe_number_at", body, steps, byref(field), byref(number), byref(self.report))
        if answer != DONE:
            raise ValueError(answer)
        size = number.high << 64 | number.low
        return (-size if number.is_negative else size) if number.is_there else None

    def text(self, body, steps, field):
        """The text of a field, or None."""
        text = create_string_buffer(256)
        answer = self.call("sbe_text_at", body, steps, byref(field), text, byref(self.report))
        return text.raw[: self.report.length].decode() if answer == DONE else None

    def state(self, body, steps, field):
        """The state of a field; None if there is no such field, or no such entry."""
        answer = self.call("sbe_state_at", body, steps, byref(field), byref(self.report))
        return self.report.code if answer == DONE else None

    def __enter__(self):
        return self

    def __exit__(self, *_):
        self.library.sbe_close.restype, self.library.sbe_close.argtypes = None, [c_void_p]
        self.library.sbe_close(byref(self.handle))


class Feed:
    """The fields of the feed that are read, found by their names."""

    def __init__(self, schema):
        self.refresh = schema.part(MESSAGE, 0, b"IncrementalRefresh")
        self.entries = schema.part(GROUP, self.refresh.level, b"entries")
        self.price = schema.part(FIELD, self.entries.level, b"price")
        self.status = schema.part(MESSAGE, 0, b"SecurityStatus")
        self.symbol = schema.part(FIELD, self.status.level, b"symbol")
        self.reference = schema.part(FIELD, self.status.level, b"reference")

    def lines(self, schema, body):
        """The lines that are printed for a body."""
        message = schema.message(body)
        if message == self.refresh.number:
            yield from self.prices(schema, body)
        elif message == self.status.number:
            symbol = schema.text(body, ROOT, Field(self.symbol.number, 0))
            yield f"{symbol} {decimal(schema.number(body, ROOT, Field(self.reference.number, 0)))}"

    def prices(self, schema, body):
        """The prices of the entries. The mantissa is the first member of a price."""
        steps, price = (Step * 1)(Step(self.entries.number, 0)), Field(self.price.number, 0)
        while schema.state(body, steps, price) is not None:
            yield decimal(schema.number(body, steps, price))
            steps[0].entry += 1


def bodies(stream):
    """The bodies of frames: each has its length in 4 bytes (big-endian, with this header) and an encoding type before it."""
    while len(header := stream.read(6)) == 6:
        yield stream.read(struct.unpack(">I", header[:4])[0] - 6)


def decimal(mantissa):
    """A price as text: 1234500 is 123.4500."""
    if mantissa is None:
        return "none"
    digits = str(abs(mantissa)).rjust(PLACES + 1, "0")
    return ("-" if mantissa < 0 else "") + digits[:-PLACES] + "." + digits[-PLACES:]


def main():
    if len(sys.argv) != 3:
        sys.exit(__doc__)
    with open(sys.argv[2], "rb") as file, Schema(sys.argv[1], file.read()) as schema:
        feed = Feed(schema)
        for body in bodies(sys.stdin.buffer):
            try:
                for line in feed.lines(schema, body):
                    print(line)
            except Refused as refused:
                print(f"refused: {refused}")


main()
