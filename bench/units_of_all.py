"""Prints, for UTF-8, UTF-16 and UTF-32, a sum over the units that python's codecs give all code points."""


def utf8(point):
    return list(chr(point).encode("utf-8", "surrogatepass"))


def utf16(point):
    units = chr(point).encode("utf-16-be", "surrogatepass")
    return [units[i] * 256 + units[i + 1] for i in range(0, len(units), 2)]


def utf32(point):
    return [int.from_bytes(chr(point).encode("utf-32-be", "surrogatepass"), "big")]


for spelling in (utf8, utf16, utf32):
    total = 0
    for point in range(0x110000):
        units = spelling(point)
        for place in [len(units)] + units + [0] * (4 - len(units)):
            total = (total * 31 + place + 1) % 1000000007
    print("sum", total)
