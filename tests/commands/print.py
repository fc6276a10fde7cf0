#!/usr/bin/env python3
"""Reads a PDF that a browser printed: how many pages, how large, and how many frames of 50 mm by 25 mm are drawn, all within 0.05 mm.
usage: print.py PDF    prints 'PAGES WIDTH HEIGHT FRAMES', the size in millimetres."""
import re
import sys
import zlib

MM = 72 / 25.4


def content(data):
    """The page's drawing operators: the streams that hold a path."""
    for match in re.finditer(rb"stream\r?\n(.*?)endstream", data, re.S):
        try:
            text = zlib.decompress(match.group(1))
        except zlib.error:
            continue
        if b" cm" in text and b" m\n" in text:
            yield text.decode("latin-1")


def frames(text):
    """The paths that are 50 mm by 25 mm on paper."""
    now, kept, numbers, points, found = (1, 0, 0, 1, 0, 0), [], [], [], 0

    def put(x, y):
        points.append((now[0] * x + now[2] * y + now[4], now[1] * x + now[3] * y + now[5]))

    for word in text.split():
        if re.fullmatch(r"-?[0-9]*\.?[0-9]+", word):
            numbers.append(float(word))
            continue
        if word == "q":
            kept.append(now)
        elif word == "Q":
            now = kept.pop()
        elif word == "cm":
            a, b, c, d, e, f = numbers[-6:]
            now = (
                a * now[0] + b * now[2], a * now[1] + b * now[3],
                c * now[0] + d * now[2], c * now[1] + d * now[3],
                e * now[0] + f * now[2] + now[4], e * now[1] + f * now[3] + now[5],
            )
        elif word in ("m", "l"):
            put(*numbers[-2:])
        elif word == "re":
            x, y, w, h = numbers[-4:]
            put(x, y)
            put(x + w, y + h)
        elif word in ("S", "s"):
            xs, ys = [p[0] / MM for p in points], [p[1] / MM for p in points]
            if points and len(points) < 9 and abs(max(xs) - min(xs) - 50) < 0.05 and abs(max(ys) - min(ys) - 25) < 0.05:
                found += 1
            points = []
        elif word in ("f", "f*", "n", "W"):
            points = points if word == "W" else []
        numbers = []
    return found


data = open(sys.argv[1], "rb").read()
pages = len(re.findall(rb"/Type\s*/Page\b", data))
box = [float(x) for x in re.search(rb"/MediaBox\s*\[([^\]]*)\]", data).group(1).split()]
print(pages, round((box[2] - box[0]) / MM), round((box[3] - box[1]) / MM), sum(frames(text) for text in content(data)))
