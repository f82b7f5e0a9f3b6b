"""A till's day by the rule of crates/bench/src/day.rt, for the display or for a terminal: day.py pole|terminal SALES OUT.

Both have the same sales, texts and moves, in the same order. It prints the bytes and their FNV-1a checksum, and for
the display these are what `crates/bench/out/bench time` says of its own day.
"""

import sys

NAMES = ["MILK 1L", "BREAD", "EGGS x12", "COFFEE 500G", "APPLES KG", "BUTTER", "TEA", "SOAP"]
MESSAGE = "THANK YOU FOR SHOPPING WITH US TODAY, COME AGAIN SOON"


class Dice:
    """The same numbers every day."""

    def __init__(self):
        self.state = 1

    def below(self, n):
        self.state = (self.state * 1664525 + 1013904223) % 2**32
        return (self.state >> 16) % n


class Pole:
    """What the display is sent."""

    begin = b"\x1b@\x1fC\x01"
    clear = b"\x0c"
    slips = [b"\x1bz", b"\x1f$\x15\x01", b"\x1fX\x05", b"\x1bW\x01\x02"]
    record = b"\x1f:"
    blink = b"\x1fE\x05"
    play = b"\x1f^\x01\x04"
    # a mark takes no column
    price_at, total_at = 16, 15

    def go(self, column, row):
        return bytes([0x1F, 0x24, column, row])

    def point(self, digit):
        return b"\x1f." + digit

    def rising(self, text):
        return b"\x1f\x02" + text + b"\x1f\x01"

    def running(self, text):
        return b"\x1f\x03" + text + b"\x1f\x01"


class Terminal:
    """What does the same on a terminal. It has no like of a recording and of the lamp."""

    begin = b"\x1bc\x1b[?25h"
    clear = b"\x1b[H\x1b[2J"
    slips = [b"\x1b[z"] * 4
    record = b""
    blink = b""
    # the byte that ends the playing clears the display
    play = clear
    # a point is a character
    price_at, total_at = 15, 14

    def go(self, column, row):
        return b"\x1b[%d;%dH" % (row, column)

    def point(self, digit):
        return digit + b"."

    def rising(self, text):
        return text

    def running(self, text):
        # the row goes one to the left, and the character comes in at its end
        return b"".join(b"\r\x1b[P\x1b[20G%c" % c for c in text)


def amount(out, cents, width):
    """The digits of an amount, with a point before the last two."""
    text = b""
    for at in range(width):
        unit = 10 ** (width - 1 - at)
        digit = b"%d" % (cents // unit % 10) if cents >= unit or at >= width - 3 else b" "
        text += out.point(digit) if at == width - 3 else digit
    return text


def sale(out, dice):
    name = NAMES[dice.below(8)].ljust(14).encode()
    text = out.clear + name + out.go(out.price_at, 1) + amount(out, dice.below(20000), 5)
    text += out.go(1, 2) + b"TOTAL".ljust(12) + out.go(out.total_at, 2) + amount(out, dice.below(60000), 6)
    chance = dice.below(64)
    if chance < 2:
        text += out.clear + out.rising(MESSAGE.encode())
    elif chance < 4:
        text += out.clear + out.running(MESSAGE.encode())
    elif chance < 5:
        text += out.slips[dice.below(4)]
    elif chance < 6:
        text += out.record + out.clear + b"NEXT" + out.go(1, 2) + b"PLEASE" + out.slips[2] + out.record
        text += out.blink + out.play
    return text


def day(out, sales):
    dice = Dice()
    return out.begin + b"".join(sale(out, dice) for _ in range(sales))


def checksum(data):
    code = 0xCBF29CE484222325
    for byte in data:
        code = (code ^ byte) * 0x100000001B3 % 2**64
    return code


def main():
    kind, sales, path = sys.argv[1], int(sys.argv[2]), sys.argv[3]
    data = day({"pole": Pole, "terminal": Terminal}[kind](), sales)
    with open(path, "wb") as out:
        out.write(data)
    print("day: %d sales, %d bytes, checksum %016x" % (sales, len(data), checksum(data)))


if __name__ == "__main__":
    main()
