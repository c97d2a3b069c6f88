"""An archive of x86-64 ELF objects, as far as the tests in C look at it."""
import struct


class Archive:
    """functions: names of the global ones. needed: names that a host must define. sections: name -> (bytes, relocations) of all that is linked into
    a program"""

    def __init__(self, path):
        self.functions, self.needed, self.sections = set(), set(), {}
        with open(path, 'rb') as file:
            data = file.read()
        at = 8
        while at < len(data):
            size = int(data[at + 48:at + 58])
            member = data[at + 60:at + 60 + size]
            if member[:4] == b'\x7fELF':
                self.add(member)
            at += 60 + size + size % 2
        self.needed -= self.functions

    def add(self, elf):
        def text(table, at):
            start = sections[table][4] + at
            return elf[start:elf.index(b'\0', start)].decode()

        start, = struct.unpack_from('<Q', elf, 40)
        each, count, strings = struct.unpack_from('<HHH', elf, 58)
        sections = [struct.unpack_from('<IIQQQQIIQQ', elf, start + k * each) for k in range(count)]
        names = [text(strings, section[0]) for section in sections]
        symbols = []
        for _, kind, _, _, offset, size, link, _, _, entry in sections:
            for k in range(size // entry if kind == 2 else 0):
                name, info, _, section, value, _ = struct.unpack_from('<IBBHQQ', elf, offset + k * entry)
                name = text(link, name)
                if info >> 4 == 1:
                    (self.functions if section != 0 else self.needed).add(name)
                # a place within this object is one of a section
                symbols.append((names[section], value) if 0 < section < count else (name, 0))
        for k, (_, kind, flags, _, offset, size, _, _, _, _) in enumerate(sections):
            if flags & 2:
                self.sections[names[k]] = (elf[offset:offset + size] if kind != 8 else size, [])
        for _, kind, _, _, offset, size, _, target, _, entry in sections:
            for k in range(size // entry if kind == 4 and names[target] in self.sections else 0):
                at, info, addend = struct.unpack_from('<QQq', elf, offset + k * entry)
                name, value = symbols[info >> 32]
                self.sections[names[target]][1].append((at, info & 0xFFFFFFFF, name, value + addend))
