"""The files of a test program: its parts, of which each buffer is one, its cases, which say where the buffers lie, and the text that it prints."""


class Questions:
    def __init__(self):
        self.parts, self.cases, self.text = b'', b'', ''

    def place(self, data):
        """Where these bytes begin among the parts."""
        if data not in self.parts:
            self.parts += data
        return self.parts.index(data)

    def places(self, *buffers):
        """Where each begins and how long it is."""
        return [n for data in buffers for n in (self.place(data), len(data))]

    def add(self, leading, numbers, label, last=b''):
        """Adds a case's record: the leading bytes, numbers of four bytes, the label, the last bytes."""
        self.cases += bytes(leading) + b''.join(n.to_bytes(4, 'big') for n in numbers) + label.encode() + last

    def files(self, crate, parts):
        """The files by their paths in the repository."""
        return {f'crates/{crate}/data/{parts}': self.parts, f'crates/{crate}/data/cases.bin': self.cases,
                f'crates/{crate}/stdout': self.text.encode()}
