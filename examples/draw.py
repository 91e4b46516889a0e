#!/usr/bin/env python3
"""Draws the words of the examples, before and after: series as SVG, pictures as PNG.

What is drawn after a kernel are the words that are to leave, of the files NAME/PORT.expected.txt; examples/check.py says whether
they do.

    examples/draw.py     writes the pictures that the pages of the examples show
"""
import pathlib
import struct
import zlib

import models

HERE = pathlib.Path(__file__).resolve().parent
WIDTH, PANEL, LEFT, RIGHT, HEAD, FOOT = 680, 150, 56, 12, 26, 10
INK, GREY, RULE = "#24292f", "#8c959f", "#d0d7de"
BEFORE, AFTER, MARK = "#9aa4ae", "#2f6db3", "#d1242f"
HOT = [(0, 0, 0), (120, 0, 60), (220, 50, 20), (250, 170, 30), (255, 255, 220)]
GREYS = [(0, 0, 0), (255, 255, 255)]


def numbers_of(name, width=None):
    """The words of a file; with a width they are read as two's complement."""
    numbers = [int(line, 16) for line in (HERE / name).read_text().split()]
    return numbers if width is None else [number - (number >> (width - 1) << width) for number in numbers]


# series


class Series:
    """Panels of lines, one below the other, over the same ticks."""

    def __init__(self, ticks):
        self.ticks, self.lines, self.top = ticks, [], 0

    def text(self, x, y, words, color=INK, anchor="start"):
        style = f'font-family="sans-serif" font-size="12" fill="{color}" text-anchor="{anchor}"'
        self.lines.append(f'<text x="{x:g}" y="{y:g}" {style}>{words}</text>')

    def panel(self, named, numbers, ends=(str, str)):
        """Begins a panel with a head, in which each name has a color; it has room for these numbers."""
        self.low, self.high = min(numbers), max(numbers)
        self.base = self.top + HEAD + PANEL
        x = LEFT
        for name, color in named:
            self.text(x, self.top + 17, name, color)
            x += 7 * len(name) + 24
        for number in (self.low, self.high):
            y = self.y(number)
            self.lines.append(f'<path d="M{LEFT} {y:g}H{WIDTH - RIGHT}" stroke="{RULE}"/>')
            self.text(LEFT - 6, y + 4, f"{number:,}", GREY, "end")
        self.top = self.base + FOOT

    def x(self, tick):
        return round(LEFT + (WIDTH - LEFT - RIGHT) * tick / max(1, self.ticks - 1), 1)

    def y(self, number):
        return round(self.base - PANEL * (number - self.low) / max(1, self.high - self.low), 1)

    def line(self, numbers, color, first=0):
        points = " ".join(f"{self.x(tick):g},{self.y(number):g}" for tick, number in enumerate(numbers, first))
        self.lines.append(f'<polyline points="{points}" fill="none" stroke="{color}" stroke-width="1.3"/>')

    def steps(self, numbers, color):
        """A line that stays at each number until the next one comes."""
        path = f"M{self.x(0):g} {self.y(numbers[0]):g}"
        for tick, (old, new) in enumerate(zip(numbers, numbers[1:]), 1):
            if new != old:
                path += f"H{self.x(tick):g}V{self.y(new):g}"
        self.lines.append(f'<path d="{path}H{self.x(len(numbers) - 1):g}" fill="none" stroke="{color}" stroke-width="1.3"/>')

    def rule(self, number, color):
        y = self.y(number)
        self.lines.append(f'<path d="M{LEFT} {y:g}H{WIDTH - RIGHT}" stroke="{color}" stroke-dasharray="4 3"/>')

    def points(self, ticks, numbers, color):
        for tick, number in zip(ticks, numbers):
            self.lines.append(f'<circle cx="{self.x(tick):g}" cy="{self.y(number):g}" r="2.2" fill="{color}"/>')

    def save(self, name):
        height = self.top + FOOT
        head = f'<svg xmlns="http://www.w3.org/2000/svg" width="{WIDTH}" height="{height}" viewBox="0 0 {WIDTH} {height}">'
        ground = f'<rect width="{WIDTH}" height="{height}" fill="white"/>'
        (HERE / name).write_text("\n".join([head, ground, *self.lines, "</svg>"]) + "\n")


def average():
    price, mean = numbers_of("average/price.txt"), numbers_of("average/mean.expected.txt")
    series = Series(len(price))
    series.panel([("price", GREY), ("mean of 16 prices", AFTER)], price)
    series.line(price, BEFORE)
    series.line(mean, AFTER, len(price) - len(mean))
    series.save("average/average.svg")


def fir():
    x, y = numbers_of("fir/x.txt", 16), numbers_of("fir/y.expected.txt", 16)
    series = Series(len(x))
    for name, numbers, color in (("x, before the filter", x, BEFORE), ("y, behind it", y, AFTER)):
        series.panel([(name, color)], x)
        series.line(numbers, color)
    series.save("fir/fir.svg")


def maximum():
    price, greatest = numbers_of("maximum/price.txt"), numbers_of("maximum/greatest.expected.txt")
    since = sorted(set(numbers_of("maximum/since.expected.txt")))
    series = Series(len(price))
    series.panel([("price", GREY), ("the greatest so far", AFTER), ("since", MARK)], price)
    series.line(price, BEFORE)
    series.steps(greatest, AFTER)
    series.points(since, [price[tick] for tick in since], MARK)
    series.save("maximum/maximum.svg")


def held(is_now, words):
    """What is held of words that come where `is_now` is so: the last one, and 0 before the first."""
    numbers, words = [0], iter(words)
    for now in is_now:
        numbers.append(next(words) if now else numbers[-1])
    return numbers[1:]


def imbalance():
    is_ask = numbers_of("imbalance/isAsk.txt")
    bid = held([not now for now in is_ask], numbers_of("imbalance/bid.txt"))
    ask = held(is_ask, numbers_of("imbalance/ask.txt"))
    values = numbers_of("imbalance/imbalance.expected.txt", 32)
    series = Series(len(is_ask))
    series.panel([("bid", AFTER), ("ask", BEFORE)], bid + ask)
    series.steps(ask, BEFORE)
    series.steps(bid, AFTER)
    series.panel([("imbalance", AFTER), ("signal", MARK)], values)
    for bound in (models.LEAST, models.MOST):
        series.rule(bound, MARK)
    series.line(values, AFTER)
    series.points(numbers_of("imbalance/tick.expected.txt"), numbers_of("imbalance/signal.expected.txt", 32), MARK)
    series.save("imbalance/imbalance.svg")


def means_of(numbers, window):
    return [sum(numbers[end - window : end]) // window for end in range(window, len(numbers) + 1)]


def crossing():
    price = numbers_of("crossing/price.txt")
    series = Series(len(price))
    series.panel([("price", GREY), ("mean of 8", AFTER), ("mean of 32", INK), ("crossings", MARK)], price)
    series.line(price, BEFORE)
    for window, color in ((8, AFTER), (32, INK)):
        series.line(means_of(price, window), color, window - 1)
    series.points(numbers_of("crossing/tick.expected.txt"), numbers_of("crossing/at.expected.txt"), MARK)
    series.save("crossing/crossing.svg")


def biquad():
    series = Series(240)
    for name, port, color in (("x, before the filter", "x", BEFORE), ("y, behind it", "y.expected", AFTER)):
        numbers = [number / models.UNIT for number in numbers_of(f"biquad/{port}.txt", 24)]
        series.panel([(name, color)], [-2, 3])
        series.line(numbers, color)
    series.save("biquad/biquad.svg")


def roles_of(data):
    """What each byte of a stream of packets is, by its color."""
    left, wanted, roles = None, False, []
    for byte in data:
        if left is None:
            left, wanted = "size", byte == models.KIND
            roles.append(MARK if wanted else RULE)
        elif left == "size":
            left = byte or None
            roles.append(INK if wanted else RULE)
        else:
            left = left - 1 or None
            roles.append(AFTER if wanted else "#eaeef2")
    return roles


def packets():
    """The bytes that come in, in rows: kinds and sizes of wanted packets, their payloads, and what is passed over."""
    roles, across, size = roles_of(numbers_of("packets/data.txt")), 38, 17
    series = Series(1)
    for x, (name, color) in zip((0, 130, 230, 340), (("wanted kind", MARK), ("size", INK), ("payload", AFTER), ("passed over", GREY))):
        series.text(LEFT - 40 + x, 16, name, color)
    for place, color in enumerate(roles):
        x, y = LEFT - 40 + place % across * size, HEAD + place // across * size
        series.lines.append(f'<rect x="{x}" y="{y}" width="{size - 2}" height="{size - 2}" fill="{color}"/>')
    series.top = HEAD + -(-len(roles) // across) * size
    series.save("packets/packets.svg")


# pictures


def between(colors, share):
    """The color at a share from 0 to 1 of the way through some colors."""
    part = min(int(share * (len(colors) - 1)), len(colors) - 2)
    along = share * (len(colors) - 1) - part
    return bytes(round(a + (b - a) * along) for a, b in zip(colors[part], colors[part + 1]))


def chunk(kind, data):
    return struct.pack(">I", len(data)) + kind + data + struct.pack(">I", zlib.crc32(kind + data))


def picture(name, numbers, wide, most, colors, scale):
    """Writes a PNG with 256 colors, in which each number is a square, from 0 to the most."""
    lines = b""
    for start in range(0, len(numbers), wide):
        line = b"".join(bytes([min(255, number * 255 // most)]) * scale for number in numbers[start : start + wide])
        lines += (b"\0" + line) * scale
    size = struct.pack(">II5B", wide * scale, len(numbers) // wide * scale, 8, 3, 0, 0, 0)
    palette = b"".join(between(colors, level / 255) for level in range(256))
    parts = [(b"IHDR", size), (b"PLTE", palette), (b"IDAT", zlib.compress(lines, 9)), (b"IEND", b"")]
    (HERE / name).write_bytes(b"\x89PNG\r\n\x1a\n" + b"".join(chunk(*part) for part in parts))


def colored(name, points, wide, scale):
    """Writes a PNG of points of 24 bits, the red in the low ones, in which each point is a square."""
    lines = b""
    for start in range(0, len(points), wide):
        line = b"".join(point.to_bytes(3, "little") * scale for point in points[start : start + wide])
        lines += (b"\0" + line) * scale
    size = struct.pack(">II5B", wide * scale, len(points) // wide * scale, 8, 2, 0, 0, 0)
    parts = [(b"IHDR", size), (b"IDAT", zlib.compress(lines, 9)), (b"IEND", b"")]
    (HERE / name).write_bytes(b"\x89PNG\r\n\x1a\n" + b"".join(chunk(*part) for part in parts))


def pictures():
    colored("sharpen/before.png", numbers_of("sharpen/x.txt"), models.WIDE, 5)
    colored("sharpen/after.png", numbers_of("sharpen/y.expected.txt"), models.WIDE, 5)
    sobel = (models.WIDE, 255, GREYS, 5)
    picture("sobel/before.png", numbers_of("sobel/x.txt"), *sobel)
    picture("sobel/after.png", numbers_of("sobel/y.expected.txt"), *sobel)
    heat = (models.PLATE_WIDE, 100 * models.DEGREE, HOT, 7)
    picture("heat/before.png", numbers_of("heat/before.txt"), *heat)
    picture("heat/after.png", numbers_of("heat/after.expected.txt"), *heat)


def main():
    for draw in (average, fir, maximum, imbalance, crossing, biquad, packets, pictures):
        draw()
    for path in sorted([*HERE.glob("*/*.svg"), *HERE.glob("*/*.png")]):
        print(f"{path.relative_to(HERE)}: {path.stat().st_size} bytes")


if __name__ == "__main__":
    main()
