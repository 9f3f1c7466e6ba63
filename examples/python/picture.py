#!/usr/bin/env python3
"""Writes the screen that an application's output leads to as HTML, SVG or JSON, or as rows with control sequences.

    RILQAMYN_LIBRARY=out/librilqamyn.so examples/python/picture.py svg 80 24 < output > screen.svg
"""
import sys

import rilqamyn


def main(format, width, height):
    with rilqamyn.Screen(int(width), int(height)) as screen:
        screen.feed(sys.stdin.buffer.read())
        sys.stdout.buffer.write(screen.written(rilqamyn.Format[format.upper()]).encode())


if __name__ == "__main__":
    main(*sys.argv[1:])
