"""Reads an archive of object files, and ELF files with the low byte first, of 32 and of 64 bits."""
import collections
import struct

ARM, X86_64, AARCH64, RISCV = 40, 62, 183, 243
PROGBITS, SYMTAB, RELA, NOTE, NOBITS, REL = 1, 2, 4, 7, 8, 9  # kinds of sections
WRITE, ALLOC, EXECUTE = 1, 2, 4  # flags of a section
LOCAL, UNDEFINED = 0, 0

Section = collections.namedtuple("Section", "name kind flags offset size link info entry")
Symbol = collections.namedtuple("Symbol", "name value size binding section")
# Of each width: the header after its first 16 bytes, a section, a symbol and its fields' order, and the size of a
# relocation's place.
WIDTHS = {1: ("<HHIIIIIHHHHHH", "<10I", "<IIIBBH", "name value size info other section", "<II"),
          2: ("<HHIQQQIHHHHHH", "<IIQQQQIIQQ", "<IBBHQQ", "name info other section value size", "<QQ")}


class NotElf(Exception):
    """A file that is not what this module reads."""


def text_at(table, place):
    end = table.find(b"\0", place)
    if not 0 <= place < len(table) or end < 0:
        raise NotElf("a name is not in its table")
    return table[place:end].decode("utf-8", "backslashreplace")


def unpack(form, data, place):
    try:
        return struct.unpack_from(form, data, place)
    except struct.error as error:
        raise NotElf(f"it ends too soon: {error}") from error


class Elf:
    """One object file or program."""

    def __init__(self, data):
        if data[:4] != b"\x7fELF" or data[4] not in WIDTHS or data[5] != 1:
            raise NotElf("it is not an ELF file with the low byte first")
        self.data, self.bits = data, 32 * data[4]
        head, self.of_section, self.of_symbol, self.symbol_fields, self.of_relocation = WIDTHS[data[4]]
        (_, self.machine, _, _, _, table, self.flags, _, _, _, size, count, names) = unpack(head, data, 16)
        rows = [unpack(self.of_section, data, table + i * size) for i in range(count)]
        text = b"" if not names else data[rows[names][4]:rows[names][4] + rows[names][5]]
        self.sections = [self.section(row, text) for row in rows]
        self.symbols = [symbol for section in self.sections if section.kind == SYMTAB
                        for symbol in self.symbols_of(section)]
        self.waits = [(self.sections[section.info], symbol) for section in self.sections if section.kind in (REL, RELA)
                      for symbol in self.waits_of(section)]

    @staticmethod
    def section(row, names):
        name, kind, flags, _, offset, size, link, info, _, entry = row
        return Section(text_at(names, name), kind, flags, offset, size, link, info, entry)

    def bytes_of(self, section):
        return b"" if section.kind == NOBITS else self.data[section.offset:section.offset + section.size]

    def symbols_of(self, section):
        names = self.bytes_of(self.sections[section.link])
        for place in range(section.offset, section.offset + section.size, section.entry):
            row = dict(zip(self.symbol_fields.split(), unpack(self.of_symbol, self.data, place)))
            yield Symbol(text_at(names, row["name"]), row["value"], row["size"], row["info"] >> 4, row["section"])

    def defined(self):
        """The symbols that other files see."""
        return [one for one in self.symbols if one.binding != LOCAL and one.section != UNDEFINED]

    def undefined(self):
        """The symbols that other files have to bring. The first symbol of every table is none."""
        return [one for one in self.symbols if one.section == UNDEFINED and (one.name or one.binding != LOCAL)]

    def waits_of(self, section):
        """The symbol of each relocation in a section; None where it names none."""
        for place in range(section.offset, section.offset + section.size, section.entry):
            index = unpack(self.of_relocation, self.data, place)[1] >> (8 if self.bits == 32 else 32)
            yield self.symbols[index] if index else None

    def relocations(self, section):
        """The symbols that the bytes of a section wait for."""
        return [symbol for other, symbol in self.waits if other == section]

    def kept(self):
        """The sections with bytes that a program can write."""
        return [one for one in self.sections if one.flags & WRITE and one.flags & ALLOC and one.size]

    def code(self):
        """The sections with instructions."""
        return [one for one in self.sections if one.flags & EXECUTE and one.size]

    def words(self):
        """The code in words of 32 bits, as AArch64 has its instructions."""
        return [word for section in self.code() for word, in struct.iter_unpack("<I", self.bytes_of(section))]

    def constants(self):
        """The sections with values that code reads and cannot write."""
        return [one for one in self.sections if one.kind == PROGBITS and one.flags & (ALLOC | WRITE | EXECUTE) == ALLOC]

    def tables(self):
        """The sections that take memory and are neither code nor data: tables to unwind a stack, for example."""
        loaded = [one for one in self.sections if one.flags & ALLOC and one.size]
        return [one for one in loaded if one.kind not in (PROGBITS, NOBITS, NOTE)]


def parse(data):
    """An ELF file. A number in it that leads nowhere is its fault too."""
    try:
        return Elf(data)
    except (IndexError, ValueError, OverflowError) as error:
        raise NotElf(f"a number in it leads nowhere: {error}") from error


def members(data):
    """The files of an archive, names and bytes; its own tables are not among them."""
    if data[:8] != b"!<arch>\n":
        raise NotElf("it is not an archive")
    place = 8
    while place < len(data):
        head = data[place:place + 60]
        if len(head) < 60 or head[58:] != b"`\n":
            raise NotElf("a member has no head")
        name, size = head[:16].decode("ascii", "backslashreplace").strip(), head[48:58].strip()
        if not size.isdigit() or place + 60 + int(size) > len(data):
            raise NotElf("a member ends too soon")
        size = int(size)
        if name not in ("/", "//", "/SYM64/"):
            yield name, data[place + 60:place + 60 + size]
        place += 60 + size + size % 2


def read(path):
    with open(path, "rb") as file:
        return file.read()
