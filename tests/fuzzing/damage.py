"""What is told of a file that isn't the log file that was asked for (docs/LOG.md)."""

import struct

import replay
from fuzzing.bodies import HEADER_BYTES, MAGIC, TODAY

# The fields of a header, as a command line calls them.
FIELDS = (
    "version", "logger", "--loggers", "--warehouses", "--districts", "--customers", "--items", "--orders", "--commits",
    "--population",
)


class Flaw(Exception):
    """The first thing that is wrong in a file."""


def numbers_of(header):
    return [header.version, header.logger, header.loggers, *header.scale, header.seed]


def void_flaw(text, mark, epoch):
    """What is wrong in a void body that begins with these bytes behind a mark and an epoch, or None."""
    if len(text) < 16 or text[8:16] != b"\xff" * 8:
        return None
    length, *_ = replay.LENGTH.unpack_from(text)
    if length != 25:
        return "its length isn't 25"
    if len(text) < 32:
        return None
    low, high = replay.RANGE.unpack_from(text, 16)
    flaws = [
        (low == 0, "it begins at epoch 0"),
        (high < low, "it begins behind its end"),
        (high > replay.MAX_MARK, f"it ends behind epoch {replay.MAX_MARK}"),
        (high < mark or high < epoch, "it ends before a mark or an epoch in front of it"),
    ]
    return next((text for is_so, text in flaws if is_so), None)


def body_flaw(data, at, mark, epoch):
    """What is told of the body at this byte, behind a mark and an epoch, that may not stand there."""
    if why := void_flaw(data[at : at + 32], mark, epoch):
        return f"the void body at byte {at} isn't one that may stand there: {why}"
    if len(data) < at + 8:
        return f"it ends at byte {len(data)}, inside the body at byte {at}"
    (length,) = replay.LENGTH.unpack_from(data, at)
    if (end := at + 8 + length) <= len(data):
        return f"the body at byte {at} isn't one that may stand there"
    behind = f", which would end at byte {end}" if end < 2**64 else ""
    return f"it ends at byte {len(data)}, inside the body at byte {at}{behind}"


class Examined(replay.LogFile):
    """The log file of this path that was read as a replay reads it. Raises the flaw of bytes that are none."""

    def read_gate(self, source):
        at = source.at
        if at >= len(source.data):
            raise Flaw(f"{source.name}: it ends at byte {at}, where a gate is to stand")
        return super().read_gate(source)

    def read_body(self, source):
        at, mark, epoch = source.at, self.mark, self.epoch
        try:
            super().read_body(source)
        except replay.Damaged:
            raise Flaw(f"{source.name}: {body_flaw(source.data, at, mark, epoch)}") from None


def headless(data):
    """What is told of bytes that begin with no header."""
    (version,) = struct.unpack_from("<I", data, 8) if len(data) >= 12 else (0,)
    if data.startswith(MAGIC) and version > TODAY:
        return f"it is of version {version}, which this program doesn't know"
    if not data:
        return "it is empty"
    if len(data) < HEADER_BYTES:
        return f"it has {len(data)} bytes, and a header has {HEADER_BYTES}"
    return f"bytes 0 to {HEADER_BYTES - 1} are no header of a log file"


def header_flaw(path, name, found, asked):
    """What is told of a file in whose header a field is not the number that is asked for."""
    if name == "version":
        return f"{path}: it is of version {found}, and log-0 is of {asked}"
    if name == "logger":
        return f"{path} is the file of logger {found}"
    return f"{name} {asked}, but {path} is of {found}"


def examined(path, data, asked, wanted):
    """The log file of these bytes, of which this header is asked, with its writes to the tables that are wanted."""
    try:
        header = replay.read_header(replay.Source("", data))
    except replay.Damaged:
        raise Flaw(f"{path}: {headless(data)}") from None
    for name, found, number in zip(FIELDS, numbers_of(header), numbers_of(asked)):
        if found != number:
            raise Flaw(header_flaw(path, name, found, number))
    return Examined(path, data, wanted)
