#!/usr/bin/env python3
"""Makes the example bus files and their font, in this folder or in the one that is named: make.py [FOLDER]

page.bus    a text page over a graphics frame, with a message strip in the third screen block
grey.bus    a picture of four shades: a gradient behind a box that has priority over it
scroll.bus  a job list that moves to the left a dot at a time, its cursor with it, until it has moved by a character
wake.bus    a page that sleep darkens, that waking leaves dark and DISP ON shows again; and a sleep that is refused
worked.bus  the worked example of the rules: two rows of graphics, and a byte that is no command
host-1.bus  for host.c: the page's commands, which leave the cursor at its second line
host-2.bus  for host.c: what came later, another second line at that cursor, another strip, and the cursor shown
"""
import os
import struct
import sys

GLYPHS = {  # 5 x 7, a number a row
    "A": "0E 11 11 1F 11 11 11", "B": "1E 11 11 1E 11 11 1E", "D": "1E 11 11 11 11 11 1E",
    "E": "1F 10 10 1E 10 10 1F", "G": "0E 11 10 17 11 11 0E", "H": "11 11 11 1F 11 11 11",
    "I": "0E 04 04 04 04 04 0E", "J": "07 02 02 02 02 12 0C", "K": "11 12 14 18 14 12 11",
    "L": "10 10 10 10 10 10 1F", "N": "11 19 19 15 13 13 11", "O": "0E 11 11 11 11 11 0E",
    "S": "0F 10 10 0E 01 01 1E", "T": "1F 04 04 04 04 04 04", "Y": "11 11 0A 04 04 04 04",
    "1": "04 0C 04 04 04 04 0E", "4": "02 06 0A 12 1F 02 02", "7": "1F 01 02 04 08 08 08",
}


def font():
    made = bytearray(1280)
    for letter, rows in GLYPHS.items():
        at = (ord(letter) - 0x20) * 8
        made[at:at + 7] = bytes(row << 3 for row in bytes.fromhex(rows))
    return bytes(made)


def record(kind, payload):
    return struct.pack("<HH", len(payload), kind) + payload


def bus(*numbers):
    return record(1, bytes(numbers))


def show(frame):
    return record(3, struct.pack("<I", frame))


def write(address, data):
    return bus(0x46, address & 255, address >> 8) + bus(0x42, *data)


def page_commands():
    width, rows = 10, 24
    made = bus(0x40, 0x10, 7, 7, width - 1, width + 3, rows - 1, width, 0)  # 80 x 24 dots, 8 x 8 characters
    made += bus(0x44, 0, 0, 15, 0x00, 0x02, 23, 0x00, 0x01, 0, 0)  # block 1: 16 rows, then block 3; block 2 below
    made += bus(0x5B, 0x00) + bus(0x59, 0x54)  # blocks 1 and 3 text, OR, all steady
    made += write(0x0000, b"NIGHT DESK") + write(0x000A, b" JOB 17   ")
    made += write(0x0100, b" TO BAY 4 ")
    edge = [0xFF] * width
    side = [0x80] + [0] * (width - 2) + [0x01]
    return made + write(0x0200, edge + side * (rows - 2) + edge)


def page():
    return page_commands() + show(0)


def grey():
    made = bus(0x40, 0x10, 7, 7, 7, 11, 7, 8, 0)  # 8 columns, at 2 bits 32 x 8 dots
    made += bus(0x44, 0, 0, 7, 0x00, 0x01, 7, 0x00, 0x02, 0, 0)
    made += bus(0x5B, 0x1F) + bus(0x60, 1) + bus(0x59, 0x54)  # three layers of graphics, priority, 2 bits a dot
    box = [[0] * 8 for _ in range(8)]
    for row in range(2, 6):
        box[row][3:5] = [0xFF, 0xFF]
    made += write(0x0000, sum(box, []))
    made += write(0x0100, [0x00, 0x00, 0x55, 0x55, 0xAA, 0xAA, 0xFF, 0xFF] * 8)
    return made + show(0)


def scroll():
    width, rows = 10, 16
    made = bus(0x40, 0x10, 7, 7, width - 1, width + 4, rows - 1, 16, 0)  # 80 x 16 dots of lines of 16 characters
    made += bus(0x44, 0, 0, rows - 1, 0x00, 0x01, rows - 1)
    made += bus(0x5B, 0x00) + bus(0x5D, 7, 7) + bus(0x59, 0x15)  # block 1 text, OR, steady, the cursor a steady line
    made += write(0x0000, b"JOB 17 TO BAY 4 ") + write(0x0010, b"JOB 14 TO BAY 7 ")
    made += bus(0x46, 0x10, 0) + show(0)  # the cursor stands below the second job
    made += bus(0x40, 0x10, 7, 7, width)  # a column more, as scrolled rows are a column narrower
    for dots in range(1, 8):
        made += bus(0x5A, dots) + show(dots)
    made += bus(0x44, 1, 0) + bus(0x5A, 0) + bus(0x40, 0x10, 7, 7, width - 1)  # now block 1 starts a character later instead
    return made + show(8)


def wake():
    width, rows = 5, 8
    made = bus(0x40, 0x10, 7, 7, width - 1, width + 3, rows - 1, width, 0)  # 40 x 8 dots, 8 x 8 characters
    made += bus(0x44, 0, 0, rows - 1, 0x00, 0x01, rows - 1)
    made += bus(0x5B, 0x00) + bus(0x59, 0x14)  # block 1 text, OR, steady
    made += write(0x0000, b"BAY 4") + show(0)
    made += bus(0x53) + show(1)
    made += bus(0x40, 0x10) + show(2)  # P1 alone wakes
    made += bus(0x59) + show(3)
    return made + bus(0x58) + bus(0x53)  # with the display off it may not sleep


def worked():
    made = bus(0x40, 0x10, 7, 7, 0, 4, 1, 1, 0) + bus(0x44, 0, 0, 1, 0x10, 0, 1) + bus(0x5B, 0x0D) + bus(0x59, 0x14)
    made += bus(0x46, 0, 0) + bus(0x42, 0xA5, 0x3C) + bus(0x46, 0x10, 0) + bus(0x42, 0xFF)
    return made + show(0) + bus(0xFF)


def host_1():
    return page_commands() + bus(0x46, 0x0A, 0)


def host_2():
    made = bus(0x42, *b" JOB 14   ") + write(0x0100, b" TO BAY 7 ")
    return made + bus(0x5D, 4, 7) + bus(0x46, 0x10, 0) + bus(0x59, 0x55)  # the cursor a steady line below the 4 of 14


def main():
    folder = sys.argv[1] if len(sys.argv) > 1 else os.path.dirname(os.path.abspath(__file__))
    made = {
        "font.bin": font(), "page.bus": page(), "grey.bus": grey(), "scroll.bus": scroll(), "wake.bus": wake(), "worked.bus": worked(),
        "host-1.bus": host_1(), "host-2.bus": host_2(),
    }
    for name, data in made.items():
        with open(os.path.join(folder, name), "wb") as file:
            file.write(data)


main()
