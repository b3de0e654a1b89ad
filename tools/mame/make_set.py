#!/usr/bin/env python3
"""Makes the files that MAME asks for to run a ROM: make_set.py SET ROM FOLDER

SET is `zerotimed`, a Galaxian whose program is one file of 16 KB, or `mooncrsb`, a Moon Cresta. The program is the ROM
with FF after it, as an open read gives. The characters are letters at their ASCII codes, from the font that MAME comes
with; the colours are eight. MAME warns of wrong checksums and goes on."""

import pathlib
import sys

# By set: the files of the program with their sizes, the files of characters (those of the first plane first), the colours.
SETS = {
    "zerotimed": ([("zerotime_datamat.bin", 16384)], ["ztc-2.016", "ztc-1.016"], "6l.bpr"),
    "mooncrsb": (
        [(name, 2048) for name in ("bepr194", "bepr195", "f03.bin", "f04.bin", "e5", "bepr199", "e7", "bepr201")],
        ["epr203", "mcs_d", "epr202", "mcs_c"],
        "mmi6331.6l",
    ),
}
FONT = pathlib.Path("/usr/share/games/mame/fonts/uismall.bdf")
BASE_LINE = 7  # the row of a tile on which letters stand, counted from the top
FRAME_TILE = [0x00, 0x7E, 0x42, 0x5A, 0x5A, 0x42, 0x7E, 0x00]
BLANK_TILE = [0x00] * 8
HUES = [0xFF, 0x07, 0x38, 0xC0, 0x3F, 0xC7, 0xF8, 0x2F]


def letters():
    """The tiles of the letters: by ASCII code eight rows of eight bits, bit 7 left."""
    tiles = {}
    code, box, rows = 0, (0, 0, 0, 0), None
    lines = FONT.read_text(encoding="latin-1").splitlines() if FONT.exists() else []
    for word, *rest in (line.split() for line in lines if line.strip()):
        if word == "ENCODING":
            code = int(rest[0])
        elif word == "BBX":
            box = tuple(map(int, rest))  # its width and height, and where its lower left corner is
        elif word == "BITMAP":
            rows = []
        elif word == "ENDCHAR":
            if 0x20 < code < 0x7F:
                tiles[code] = placed(rows, box)
            rows = None
        elif rows is not None:
            rows.append(int(word, 16) >> max(len(word) * 4 - 8, 0))
    return tiles


def placed(rows, box):
    """A letter of the font in its tile, a dot to the right."""
    tile = list(BLANK_TILE)
    top = BASE_LINE - (box[1] + box[3])
    for number, row in enumerate(rows):
        if 0 <= top + number < 8:
            tile[top + number] = row >> 1 >> max(box[2], 0) & 0xFF
    return tile


def characters():
    """One plane of the 256 tiles. The monitor stands on its side: a byte is a column of what is seen, from the right."""
    tiles = letters()
    plane = bytearray()
    for code in range(256):
        low = code % 128
        tile = tiles.get(low, BLANK_TILE if code in (0x00, 0x20) or code >= 128 else FRAME_TILE)
        for column in range(8):
            plane.append(sum(0x80 >> row for row in range(8) if tile[row] >> column & 1))
    return bytes(plane)


def colours():
    """Eight sets of four colours: black and three shades."""
    return b"".join(bytes([0, hue & 0x52, hue & 0xA4, hue]) for hue in HUES)


def main():
    name, rom, folder = sys.argv[1], pathlib.Path(sys.argv[2]).read_bytes(), pathlib.Path(sys.argv[3], sys.argv[1])
    program, graphics, palette = SETS[name]
    size = sum(size for _, size in program)
    if len(rom) > size:
        sys.exit(f"{sys.argv[2]} has more than {size} bytes")
    rom = rom.ljust(size, b"\xFF")
    folder.mkdir(parents=True, exist_ok=True)
    for file, size in program:
        (folder / file).write_bytes(rom[:size])
        rom = rom[size:]
    for file in graphics:
        (folder / file).write_bytes(characters())  # both planes alike: each dot has the third colour of its set
    (folder / palette).write_bytes(colours())


main()
