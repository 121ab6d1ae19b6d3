"""Makes a full volume of a new one: `fill.py NEW FULL slots S block B fd C I sb C I pb C I fb C I`. Prints the number of objects.

Half of the descriptors are directories, each with at most three directories and one file; together they list all sub-blocks.
The first files have all blocks, as far as there are pointer blocks for them."""
import struct
import sys

KINDS = ("fd", "sb", "pb", "fb")


def sizes_of(words):
    numbers = [int(word) for word in words if word.isdigit()]
    kinds = dict(zip(KINDS, zip(numbers[2::2], numbers[3::2])))
    return numbers[0], kinds


class Volume:
    def __init__(self, image, slots, kinds):
        self.image = image
        self.kinds = kinds
        self.clusters = {}
        at = 2 + 33 * slots
        for kind in KINDS:
            self.clusters[kind] = at
            at += 2 * kinds[kind][0]
        self.first = {}
        for kind, width in (("fd", 2), ("sb", 1), ("pb", 1)):
            self.first[kind] = at
            at += width * self.count(kind)

    def count(self, kind):
        return self.kinds[kind][0] * self.kinds[kind][1]

    def put(self, sector, offset, data):
        at = 512 * sector + offset
        self.image[at : at + len(data)] = data

    def mark(self, kind, item):
        cluster, i = divmod(item, self.kinds[kind][1])
        self.image[512 * (self.clusters[kind] + 2 * cluster + 1) + 32 + i // 8] |= 1 << i % 8

    def put_body(self, number, kind, count, addresses):
        birth = 1 if number == 0 else 2
        head = struct.pack("<4sB3xIIQI4x", b"DSFD", kind, number, 2 - kind, birth, count)
        self.put(self.first["fd"] + 2 * number + 1, 0, head + struct.pack(f"<{len(addresses)}I", *addresses))
        self.mark("fd", number)

    def put_entry(self, sub, room, name, kind, number):
        entry = struct.pack("<BBxxIQ", kind, len(name), number, 2) + name
        self.put(self.first["sb"] + sub, 128 * room, entry)


def fill_dirs(volume, dirs):
    least, more = divmod(min(volume.count("sb"), 96 * dirs), dirs)
    start = 0
    for number in range(dirs):
        subs = list(range(start, start + least + (number < more)))
        start += len(subs)
        volume.put_body(number, 2, len(subs), subs)
        for sub in subs:
            volume.mark("sb", sub)
        # The entries are in the last sub-block, so that all rooms in front of them are looked at.
        for room in range(3):
            below = 3 * number + 1 + room
            if below < dirs:
                volume.put_entry(subs[-1], room, b"dir%d" % room, 2, below)
        volume.put_entry(subs[-1], 3, b"file", 1, dirs + number)


def fill_files(volume, dirs):
    block, pointer = 0, 0
    for number in range(dirs, 2 * dirs):
        count = min(12288, volume.count("fb") - block, 128 * (volume.count("pb") - pointer))
        blocks = list(range(block, block + count))
        block += count
        for item in blocks:
            volume.mark("fb", item)
        addresses = blocks
        if count > 96:
            addresses = list(range(pointer, pointer + (count + 127) // 128))
            pointer += len(addresses)
            for i, item in enumerate(addresses):
                part = blocks[128 * i : 128 * (i + 1)]
                volume.mark("pb", item)
                volume.put(volume.first["pb"] + item, 0, struct.pack(f"<{len(part)}I", *part))
        volume.put_body(number, 1, count, addresses)


def main():
    new, full, *words = sys.argv[1:]
    with open(new, "rb") as file:
        image = bytearray(file.read())
    volume = Volume(image, *sizes_of(words))
    dirs = volume.count("fd") // 2
    fill_dirs(volume, dirs)
    fill_files(volume, dirs)
    with open(full, "wb") as file:
        file.write(image)
    print(2 * dirs)


main()
