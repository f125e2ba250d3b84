"""Reads of a program for Linux on x86-64 what a release has to know: the libraries that it wants, the versions of their
symbols, and its comments. Nothing beyond Python is needed; `readelf` shows the same."""

import struct

HEADER = struct.Struct("<16sHHIQQQIHHHHHH")
SECTION = struct.Struct("<IIQQQQIIQQ")
DYNAMIC = struct.Struct("<qQ")
NEED, NEED_VERSION = struct.Struct("<HHIII"), struct.Struct("<IHHII")
DEFINITION, DEFINITION_NAME = struct.Struct("<HHHHIII"), struct.Struct("<II")
X86_64 = 62
DT_NEEDED = 1


class Elf:
    """A program or a library."""

    def __init__(self, data):
        self.data = data
        if data[:6] != b"\x7fELF\x02\x01":
            raise ValueError("it is no ELF file of 64 bits")
        header = HEADER.unpack_from(data)
        if header[2] != X86_64:
            raise ValueError("it is not for x86-64")
        at, size, count, names = header[6], header[11], header[12], header[13]
        rows = [SECTION.unpack_from(data, at + size * number) for number in range(count)]
        self.sections = {self.text(rows[names], row[0]): row for row in rows} if rows else {}
        self.rows = rows

    def text(self, section, offset):
        """The text at an offset of a section of texts."""
        begin = section[4] + offset
        return self.data[begin : self.data.index(b"\0", begin)].decode()

    def bytes_of(self, name):
        """What the section of that name has; nothing where there is none."""
        row = self.sections.get(name)
        return self.data[row[4] : row[4] + row[5]] if row else b""

    def interpreter(self):
        """The loader that the file asks for; an empty text where it asks for none."""
        return self.bytes_of(".interp").rstrip(b"\0").decode()

    def comments(self):
        """What the compiler and the linker wrote about themselves."""
        return [it.decode(errors="replace") for it in self.bytes_of(".comment").split(b"\0") if it]

    def libraries(self):
        """The libraries that the file wants."""
        row = self.sections.get(".dynamic")
        entries = DYNAMIC.iter_unpack(self.bytes_of(".dynamic")) if row else ()
        return [self.text(self.rows[row[6]], value) for tag, value in entries if tag == DT_NEEDED]

    def wanted_versions(self):
        """The versions of symbols that are wanted, by the library that has to have them."""
        row, found = self.sections.get(".gnu.version_r"), {}
        if not row:
            return found
        texts, at = self.rows[row[6]], row[4]
        for _ in range(row[7]):
            _, count, file, first, step = NEED.unpack_from(self.data, at)
            names, inner = found.setdefault(self.text(texts, file), set()), at + first
            for _ in range(count):
                _, _, _, name, further = NEED_VERSION.unpack_from(self.data, inner)
                names.add(self.text(texts, name))
                inner += further
            at += step
        return found

    def offered_versions(self):
        """The versions of symbols that a library has."""
        row, found = self.sections.get(".gnu.version_d"), set()
        if not row:
            return found
        texts, at = self.rows[row[6]], row[4]
        for _ in range(row[7]):
            *_, first, step = DEFINITION.unpack_from(self.data, at)
            found.add(self.text(texts, DEFINITION_NAME.unpack_from(self.data, at + first)[0]))
            at += step
        return found
