#!/usr/bin/env python3
"""The words of the examples: those that come in, and those that are to leave.

What is to leave is computed by a plain program for each algorithm, over lists of numbers: nothing here knows of kernels, ticks or
schedules, and nothing is read from the sources. Chance is seeded, so each run writes the same files.

    examples/models.py     writes NAME/PORT.txt and NAME/PORT.expected.txt
"""
import math
import pathlib
import random

HERE = pathlib.Path(__file__).resolve().parent
WIDE, HIGH = 64, 48  # the picture of sobel
PLATE_WIDE, PLATE_HIGH, STEPS = 48, 36, 8
DEGREE = 2**15  # parts of a degree
TAPS = [-71, -26, 177, 774, 1876, 3329, 4731, 5594]
SCALE, LEAST, MOST = 10000, -3000, 3000
LIMIT = 11  # of the counter of methods
UNIT = 2**20  # the filter of second order counts in parts of 2^-20
KIND = 23  # of the packets that are taken


def walk(chance, start, count, step, pull=0):
    """Numbers that go up and down, in trends that last some while; they are pulled back to the first one by a share of what they
    are away from it."""
    numbers, number, trend = [], start, 0
    for place in range(count):
        if place % 20 == 0:
            trend = chance.randrange(-step // 3, step // 3 + 1)
        number += trend + chance.randrange(-step, step + 1) - (number - start) * pull // 100
        numbers.append(number)
    return numbers


# moving average: prices in cents


def average_in():
    return {"price": walk(random.Random(11), 10000, 240, 60)}


def average_out(words):
    price, window = words["price"], 16
    return {"mean": [sum(price[end - window : end]) // window for end in range(window, len(price) + 1)]}


# filter of 16 taps


def fir_in():
    """A slow wave of straight lines, and a step, under a quick one and noise."""
    chance, words = random.Random(22), []
    for place in range(240):
        around = place % 80
        slow = 300 * (20 - abs(around - 40)) if place < 160 else 6000 if place < 200 else -6000
        quick = 2500 if place // 2 % 2 else -2500
        words.append(slow + quick + chance.randrange(-900, 901))
    return {"x": words}


def fir_out(words):
    x, taps = words["x"], TAPS + TAPS[::-1]
    sums = (sum(tap * x[place - back] for back, tap in enumerate(taps) if place >= back) for place in range(len(x)))
    return {"y": [total // 2**15 for total in sums]}


# edges of a picture


def sobel_in():
    """A disk, a frame and a slope of light, with a little noise."""
    chance, words = random.Random(33), []
    for row in range(HIGH):
        for column in range(WIDE):
            light = 40 + column // 2
            if (row - 20) ** 2 + (column - 20) ** 2 <= 14**2:
                light = 200 if (row - 16) ** 2 + (column - 16) ** 2 > 5**2 else 120
            if 26 <= row < 42 and 36 <= column < 58 and not (31 <= row < 37 and 42 <= column < 52):
                light = 230
            words.append(light + chance.randrange(6))
    return {"x": words}


def sobel_out(words):
    picture = [words["x"][start : start + WIDE] for start in range(0, WIDE * HIGH, WIDE)]
    weights = [[-1, 0, 1], [-2, 0, 2], [-1, 0, 1]]

    def edge(row, column):
        if row in (0, HIGH - 1) or column in (0, WIDE - 1):
            return 0
        across = down = 0
        for i in range(3):
            for j in range(3):
                light = picture[row + i - 1][column + j - 1]
                across += weights[i][j] * light
                down += weights[j][i] * light
        return min(255, abs(across) + abs(down))

    return {"y": [edge(row, column) for row in range(HIGH) for column in range(WIDE)]}


# heat in a plate


def heat_in():
    """Degrees of a plate with a hot side and two hot spots."""
    words = []
    for row in range(PLATE_HIGH):
        for column in range(PLATE_WIDE):
            is_hot = (row - 12) ** 2 + (column - 18) ** 2 <= 20 or (22 <= row < 30 and 30 <= column < 38)
            words.append((100 if column == 0 else 90 if is_hot else 10) * DEGREE)
    return {"before": words}


def nearest(over, under):
    """The whole number that is nearest to a quotient, of two of them the even one."""
    whole, rest = divmod(over, under)
    return whole + (2 * rest > under or (2 * rest == under and whole % 2 == 1))


def heat_out(words):
    plate = [words["before"][start : start + PLATE_WIDE] for start in range(0, PLATE_WIDE * PLATE_HIGH, PLATE_WIDE)]
    fifth = nearest(2 * DEGREE, 10)
    for _ in range(STEPS):
        old = [line[:] for line in plate]
        for row in range(1, PLATE_HIGH - 1):
            for column in range(1, PLATE_WIDE - 1):
                near = old[row - 1][column] + old[row + 1][column] + sum(old[row][column - 1 : column + 2])
                plate[row][column] = nearest(near * fifth, DEGREE)
    return {"after": [point for line in plate for point in line]}


# the greatest price so far


def maximum_in():
    return {"price": [price + 3 * place for place, price in enumerate(walk(random.Random(44), 5000, 200, 40, 5))]}


def maximum_out(words):
    greatest, since = [], []
    for place, price in enumerate(words["price"]):
        if not greatest or price > greatest[-1]:
            greatest.append(price)
            since.append(place)
        else:
            greatest.append(greatest[-1])
            since.append(since[-1])
    return {"greatest": greatest, "since": since}


# imbalance of an order book


def imbalance_in():
    chance = random.Random(55)
    is_ask = [chance.getrandbits(1) for _ in range(240)]
    bids, asks = (walk(chance, 300, is_ask.count(side), 40, 10) for side in (0, 1))
    return {"isAsk": is_ask, "bid": bids, "ask": asks}


def imbalance_out(words):
    bids, asks = iter(words["bid"]), iter(words["ask"])
    bid = ask = 0
    values, ticks, signals = [], [], []
    for tick, is_ask in enumerate(words["isAsk"]):
        if is_ask:
            ask = next(asks)
        else:
            bid = next(bids)
        size = abs(bid - ask) * SCALE // (bid + ask) if bid + ask else 0
        value = size if bid > ask else -size
        values.append(value)
        if not LEAST <= value <= MOST:
            ticks.append(tick)
            signals.append(value)
    return {"imbalance": values, "tick": ticks, "signal": signals}


# crossings of two means of prices


def crossing_in():
    return {"price": walk(random.Random(66), 8000, 240, 50, 8)}


def crossing_out(words):
    price, (few, many) = words["price"], (8, 32)

    def is_above(tick):
        short, long = (sum(price[tick + 1 - window : tick + 1]) // window for window in (few, many))
        return short > long

    ticks = [tick for tick in range(many, len(price)) if is_above(tick) != is_above(tick - 1)]
    return {"at": [price[tick] for tick in ticks], "tick": ticks}


# low-pass filter of second order


def biquad_in():
    """A step, a slow wave of straight lines, and noise."""
    chance, words = random.Random(55), []
    for place in range(240):
        level = 0 if place < 20 else 2 if place < 90 else -1 if place < 130 else abs((place - 130) % 60 - 30) / 10 - 1
        words.append(round(level * UNIT) + chance.randrange(-UNIT // 3, UNIT // 3))
    return {"x": words}


def biquad_out(words):
    ahead = [nearest(part * UNIT, 10000) for part in (201, 402, 201)]
    back = [nearest(part * UNIT, 10000) for part in (15610, 6414)]
    x, y = [0, 0, *words["x"]], [0, 0]
    for place in range(2, len(x)):
        terms = [nearest(part * x[place - ago], UNIT) for ago, part in enumerate(ahead)]
        y.append(sum(terms) + nearest(back[0] * y[place - 1], UNIT) - nearest(back[1] * y[place - 2], UNIT))
    return {"y": y[2:]}


# sharper colours


def joined(colours):
    """A point of 24 bits, the first colour in the low ones."""
    return sum(colour << 8 * place for place, colour in enumerate(colours))


def sharpen_in():
    """A soft disk and stripes on a slope of colours."""
    chance, words = random.Random(66), []
    for row in range(HIGH):
        for column in range(WIDE):
            far = math.hypot(row - 24, column - 22)
            inside = max(0.0, min(1.0, (17 - far) / 5))
            stripe = 40 if column > 42 and (row + column) // 4 % 2 else 0
            colours = (60 + row + 120 * inside, 90 + column + stripe, 150 - row - 70 * inside + stripe)
            words.append(joined(max(0, min(255, round(colour) + chance.randrange(5))) for colour in colours))
    return {"x": words}


def sharpened(points, row, column):
    """A point twice, less the mean of the 25 points around it, by weights."""
    weights, colours = (1, 4, 6, 4, 1), []
    for low in (0, 8, 16):
        near = ((points[(row + a - 2) * WIDE + column + b - 2] >> low) % 256 * weights[a] * weights[b] for a in range(5) for b in range(5))
        colours.append(max(0, min(255, 2 * ((points[row * WIDE + column] >> low) % 256) - sum(near) // 256)))
    return joined(colours)


def sharpen_out(words):
    points, out = words["x"], list(words["x"])
    for row in range(2, HIGH - 2):
        for column in range(2, WIDE - 2):
            out[row * WIDE + column] = sharpened(points, row, column)
    return {"y": out}


# packets of one kind


def packets_in():
    chance, data = random.Random(77), []
    while len(data) < 300:
        payload = [chance.randrange(256) for _ in range(chance.choice([0, 1, 3, 8, 14]))]
        data += [chance.choice([KIND, KIND, 4, 99]), len(payload), *payload]
    return {"data": data}


def packets_out(words):
    out, data = {"size": [], "payload": [], "sum": []}, words["data"]
    while data:
        kind, size, payload, data = data[0], data[1], data[2 : 2 + data[1]], data[2 + data[1] :]
        if kind == KIND:
            out["size"].append(size)
            out["payload"] += payload
            out["sum"] += [sum(payload) % 256] if payload else []
    return out


# methods to copy


def methods_in():
    chance = random.Random(44)
    small = lambda: chance.choice([chance.randrange(-300, 301), chance.randrange(-(2**15), 2**15)])
    count = 64
    return {
        "a": [small() for _ in range(count)],
        "b": [small() for _ in range(count)],
        "u": [chance.randrange(2**16) for _ in range(count)],
        "by": [chance.randrange(16) for _ in range(count)],
    }


def held_words(u):
    """The word of the last tick whose place in its eight is 2, and 0 from one whose place is 5 on."""
    kept, words = 0, []
    for tick, word in enumerate(u):
        kept = {2: word, 5: 0}.get(tick % 8, kept)
        words.append(kept)
    return words


def methods_out(words):
    a, b, u, by = (words[name] for name in ("a", "b", "u", "by"))
    ticks = range(len(u))
    return {
        "min": [min(pair) for pair in zip(a, b)],
        "max": [max(pair) for pair in zip(a, b)],
        "abs": [abs(number) for number in a],
        "saturated": [max(-128, min(127, number)) for number in a],
        "slice": [word // 16 % 256 for word in u],
        "joined": [word % 256 * 256 + word // 256 for word in u],
        "modulo": [word % 32 for word in u],
        "shifted": [word // 2**count for word, count in zip(u, by)],
        "root": [math.isqrt(word) for word in u],
        "window": [sum(u[max(0, tick - 4) : tick + 1]) for tick in ticks],
        "total": [sum(u[tick - tick % 8 : tick + 1]) for tick in ticks],
        "held": held_words(u),
        "counted": [tick % LIMIT for tick in ticks],
        "not": [int(tick % 8 != 0) for tick in ticks],
    }


# files: the example, its words, its model, and the width of each port's words

METHODS_WIDTHS = dict.fromkeys(["a", "b", "u", "min", "max", "abs", "joined", "modulo", "shifted", "window", "total", "held"], 16)
METHODS_WIDTHS |= {"by": 4, "saturated": 8, "slice": 8, "root": 8, "counted": 8, "not": 1}
EXAMPLES = [
    ("average", average_in, average_out, {"price": 16, "mean": 16}),
    ("fir", fir_in, fir_out, {"x": 16, "y": 16}),
    ("sobel", sobel_in, sobel_out, {"x": 8, "y": 8}),
    ("heat", heat_in, heat_out, {"before": 24, "after": 24}),
    ("maximum", maximum_in, maximum_out, {"price": 16, "greatest": 16, "since": 40}),
    ("imbalance", imbalance_in, imbalance_out, {"isAsk": 1, "bid": 16, "ask": 16, "imbalance": 32, "tick": 40, "signal": 32}),
    ("crossing", crossing_in, crossing_out, {"price": 16, "at": 16, "tick": 40}),
    ("biquad", biquad_in, biquad_out, {"x": 24, "y": 24}),
    ("sharpen", sharpen_in, sharpen_out, {"x": 24, "y": 24}),
    ("packets", packets_in, packets_out, {"data": 8, "size": 8, "payload": 8, "sum": 8}),
    ("methods", methods_in, methods_out, METHODS_WIDTHS),
]


def text_of(numbers, width):
    """A file of words: each number in two's complement, one a line."""
    return "".join(f"{number % 2**width:0{(width + 3) // 4}x}\n" for number in numbers)


def files():
    """Each file with its text."""
    for example, words_in, words_out, widths in EXAMPLES:
        words = words_in()
        for port, numbers in words.items():
            yield HERE / example / f"{port}.txt", text_of(numbers, widths[port])
        for port, numbers in words_out(words).items():
            yield HERE / example / f"{port}.expected.txt", text_of(numbers, widths[port])


def main():
    for path, text in files():
        path.write_text(text)
        print(f"{path.relative_to(HERE)}: {text.count(chr(10))} words")


if __name__ == "__main__":
    main()
