"""Where files are placed (docs/FORMATS.md, "Where a file is placed")."""

F_SEGMENT = (0xF0000, 0x10000)
HIGH_SIZE = 0x1000000


class Zones:
    """The zones of a memory, each with its first address and its length, and what is placed in them."""

    def __init__(self, top, policy, words):
        self.zones = {1: (top - HIGH_SIZE, HIGH_SIZE), 2: F_SEGMENT}
        self.policy = policy
        self.words = words
        self.placed = []

    def place(self, zone, align, size):
        """The place of one more file, or None where there is no room."""
        place = self.chosen(*self.zones[zone], align, size)
        if place is not None:
            self.placed.append((place, place + size))
        return place

    def chosen(self, start, length, align, size):
        end = start + length
        if self.policy == "top":
            return self.greatest(start, end, align, size)
        if self.policy == "scatter":
            goal = start + self.words[len(self.placed)] % length
            place = self.least(goal, end, align, size)
            if place is not None:
                return place
        return self.least(start, end, align, size)

    def least(self, start, end, align, size):
        """The least free place from an address on."""
        place = -(-start // align) * align
        while place + size <= end:
            behind = [taken_end for taken, taken_end in self.placed if place < taken_end and taken < place + size]
            if not behind:
                return place
            place = -(-max(behind) // align) * align
        return None

    def greatest(self, start, end, align, size):
        place = (end - size) // align * align
        while place >= start:
            before = [taken for taken, taken_end in self.placed if place < taken_end and taken < place + size]
            if not before:
                return place
            place = (min(before) - size) // align * align
        return None
