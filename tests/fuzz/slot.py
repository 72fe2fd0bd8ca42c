"""Slots as docs/FORMATS.md has them, and what an install does, written apart from the program."""
from layout import region_of, refuse

# On a device without blocks one program has so many bytes.
PROGRAM = 65536
# What a target gets that is enabled.
DEFAULTS = (('priority', 'default_priority'), ('remaining_attempts', 'default_attempts'))


class Slot:
    """The slot of a label in a tree: it begins at `at`, and ends at `end`. Raises Refused."""

    def __init__(self, tree, label, layout):
        self.page, self.block, device = layout.geometry
        named = [node for node in tree.preorder() if node.prop(b'label') == label + b'\0']
        if not named:
            refuse('NoSlot')
        region = region_of(named[0])
        if region is None:
            refuse('BadReg')
        self.at, self.size = region
        self.end = self.at + self.size
        if self.block and (self.at % self.block or self.size % self.block):
            refuse('Unaligned')
        if self.end > device:
            refuse('OutOfDevice')
        if max(self.at, layout.at) < min(self.end, layout.at + layout.size):
            refuse('Overlap')

    def erases(self):
        """Where each erase begins, and the bytes that it leaves there."""
        starts = range(self.at, self.end, self.block) if self.block else []
        return [(start, b'\xff' * self.block) for start in starts]

    def programs(self, image):
        """The same of each program."""
        steps, once = [], self.block or PROGRAM
        for start in range(0, len(image), once):
            piece = image[start:start + once]
            whole = len(piece) // self.page * self.page
            for place, part in ((start, piece[:whole]), (start + whole, piece[whole:])):
                if part:
                    steps.append((self.at + place, part + b'\xff' * (-len(part) % self.page)))
        return steps

    def steps(self, image):
        return self.erases() + self.programs(image)

    def held(self, device, steps):
        """What it holds after these steps on a device."""
        there = bytearray(device[self.at:self.end])
        for start, piece in steps:
            there[start - self.at:start - self.at + len(piece)] = piece
        return bytes(there)


class Install:
    """An install of an image for a target, over a loaded table. From the byte `limit` of the device
    on nothing can be written in the slot. `status` and `text` are its answer, `begun` is the table
    of its first save, None where there is none, and `saved` that of the last. `done` are the steps
    in the slot that succeeded, and `failed` has the one that didn't."""

    def __init__(self, targets, target, slot, image, limit):
        self.targets, self.target, self.image = targets, target, image
        self.table, self.begun, self.done, self.failed = targets.table, None, [], []
        self.saved = bytes(self.table.area)
        self.status, text = self.run(slot.steps(image), limit)
        self.text = text + '\n'

    def run(self, steps, limit):
        targets, target = self.targets, self.target
        targets.put(f'{target}.priority', 0)
        if targets.best() is None:
            return 26, f'fault 26 LastTarget {target}'
        self.save()
        for start, piece in steps:
            if start + len(piece) > limit:
                self.failed = [(start, piece)]
                return 27, f'fault 27 SlotFault {start}'
            self.done.append((start, piece))
        for name, kind in DEFAULTS:
            targets.put(f'{target}.{name}', targets.worth(kind, target))
        self.save()
        return 0, f'installed {target} {len(self.image)}'

    def save(self):
        area = bytes(self.table.area)
        if area != self.saved:
            self.begun, self.saved = self.begun or area, area


def compared(there, image):
    """What a comparison of an image with a slot's bytes sends."""
    if there.startswith(image):
        return b'same\n'
    return b'differs %d\n' % next(at for at, byte in enumerate(image) if there[at] != byte)
