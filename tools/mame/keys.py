#!/usr/bin/env python3
"""Prints KEYS of board.lua for a run of so many frames: coins, starts, and a stick that moves at random: keys.py SEED FRAMES"""

import random
import sys

FIELDS = {
    "IN0 Coin 1": 1, "IN0 P1 Left": 6, "IN0 P1 Right": 6, "IN0 P1 Button 1": 12, "IN1 1 Player Start": 1,
    "IN1 2 Players Start": 1,
}


def main():
    numbers, frames = random.Random(int(sys.argv[1])), int(sys.argv[2])
    pressed, keys, frame = set(), [], 5
    while frame < frames:
        (field,) = numbers.choices(list(FIELDS), list(FIELDS.values()))
        pressed ^= {field}
        keys.append(f"{frame} {field} {int(field in pressed)};")
        frame += numbers.randint(1, 12)
    print("".join(keys))


main()
