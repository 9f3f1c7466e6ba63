#!/usr/bin/env python3
"""A screen test of a real program: Python's own interactive interpreter, in a pseudo-terminal.

    RILQAMYN_LIBRARY=out/librilqamyn.so examples/python/screen_test.py
"""
import os
import pty
import select
import sys
import time

import rilqamyn

WIDTH, HEIGHT, LIMIT = 60, 8, 20


def started(words):
    """Starts a program in a pseudo-terminal; returns its process and the terminal's file."""
    process, file = pty.fork()
    if process == 0:
        size = {"COLUMNS": str(WIDTH), "LINES": str(HEIGHT), "TERM": "dumb"}
        os.execvpe(words[0], words, {**os.environ, **size})
    return process, file


def read_until(screen, file, text):
    """Feeds what the program writes to the screen, until the screen has a text; answers what the program asks."""
    end = time.monotonic() + LIMIT
    while text not in screen.text():
        assert select.select([file], [], [], max(end - time.monotonic(), 0))[0], f"no {text!r} on\n{screen.text()}"
        screen.feed(os.read(file, 4096))
        os.write(file, screen.take_replies())


def main():
    process, file = started([sys.executable, "-q", "-E", "-c", "name = input('name? '); print(f'hello, {name}!')"])
    with rilqamyn.Screen(WIDTH, HEIGHT) as screen:
        read_until(screen, file, "name?")
        os.write(file, "wörld\n".encode())
        read_until(screen, file, "hello, wörld!")
        assert screen.row(0).rstrip() == "name? wörld", screen.row(0)
        assert screen.row(1).rstrip() == "hello, wörld!", screen.row(1)
    os.close(file)
    os.waitpid(process, 0)
    print("screen_test: ok")


if __name__ == "__main__":
    main()
