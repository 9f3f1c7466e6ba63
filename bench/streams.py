"""Streams that a stranger may send, in pieces of about 1,000 bytes where nothing else is said."""
import random
from pathlib import Path
from typing import Callable, NamedTuple

ROOT = Path(__file__).resolve().parent.parent
RELAY = ROOT / "crates/relay/out/relay"
BENCH = ROOT / "crates/bench/out/bench"
MB = 1_000_000


class Stream(NamedTuple):
    """A stream: its first bytes, a piece for each number from 0, and its last bytes."""

    name: str
    piece: Callable[[int], bytes]
    first: bytes = b""
    last: bytes = b""
    # numbers of pieces: for instructions, and for memory
    counts: tuple = (50, 100, 200)
    larger: tuple = (2000, 4000, 8000)
    # bytes of the largest single text; or, where the stream is one text, bytes of this text for each byte of the stream
    text: int = 4096
    grows: float = 0
    # instructions a byte at most, where a bound is named
    most: float = 0
    # memory that the program may take besides
    room: int = 8 * MB
    words: tuple = ("--show",)

    def bytes(self, count):
        yield self.first
        for number in range(count):
            yield self.piece(number)
        yield self.last

    def length(self, count):
        return sum(map(len, self.bytes(count)))

    def largest_text(self, count):
        return self.length(count) * self.grows if self.grows else self.text

    def command(self, count):
        return [RELAY, *self.words]

    def in_one_call(self, count):
        """Returns the command that feeds a terminal in one call and not in reads of 4096 bytes, if there is one."""
        return [BENCH, "show"] if self.words == ("--show",) else None


class Repeated(Stream):
    """A part of the program `bench` that runs over one piece, `count` times."""

    def bytes(self, count):
        return iter([self.piece(0)] * bool(count))

    def length(self, count):
        return count * len(self.piece(0))

    def command(self, count):
        return [BENCH, *self.words, str(count)]


def again(text):
    """Returns pieces that repeat a text."""
    text = text.encode() if isinstance(text, str) else text
    piece = text * max(1000 // len(text), 1)
    return lambda number: piece


def in_turn(texts):
    """Returns pieces of 50 texts in turn."""
    return again("".join(texts[at % len(texts)] for at in range(50)))


def letters(length):
    return (b"The quick brown fox jumps over the lazy dog and goes on 0123456789 " * (length // 60 + 1))[:length]


def random_bytes(number):
    return random.Random(number).randbytes(1000)


def torn(number):
    """UTF-8 characters whose last byte is missing, or is another one."""
    pick = random.Random(number)
    whole = [pick.choice("éß日本語🙂👩").encode() for _ in range(300)]
    return b"".join(it[:-1] + pick.choice([b"", b"a", b"\xc3", b"\x1b[m"]) for it in whole)


def latin_1(number):
    pick = random.Random(number)
    words = ["für", "Ärger", "naïve", "señor", "déjà", "où", "Übermut", "word"]
    return " ".join(pick.choice(words) for _ in range(180)).encode("latin-1")


def titles(length):
    return lambda number: b"\x1b]2;%d " % number + letters(length) + b"\x07"


def small_titles(number):
    return b"".join(b"\x1b]2;title %d\x07" % (number * 50 + at) for at in range(50))


def links(length, rest=b""):
    """Returns pieces of a link, a linked letter and more bytes."""
    return lambda number: b"\x1b]8;;http://example.com/%d/" % number + b"a" * length + b"\x1b\\x" + rest


def small_links(number):
    return b"".join(b"\x1b]8;;http://example.com/%d\x1b\\x" % (number * 25 + at) for at in range(25))


def large_clusters(number):
    """A letter with marks in the next cell of the screen."""
    return b"\x1b[%d;%dHa" % (number // 80 % 24 + 1, number % 80 + 1) + "\u0301".encode() * 490


LETTERS = letters(1000)
FULL_ROW = letters(4095) + b"\r\n"
LIST = b"\x1b[" + b"1;" * 10_000 + b"m"
SIXEL = "\x1bPq" + "#0;2;0;0;0#1~~@@vv@@~~@@~~$-" * 140 + "\x1b\\"
MOST = "4294967295"
EDITS = ["\x1b[@", "\x1b[P", "\x1b[L", "\x1b[M", "\x1b[X", "\x1b[4h日", "\x1b[4lx"]


def one_text(number):
    return LETTERS


def one_word(number):
    return LETTERS.replace(b" ", b"_")


# Numbers of pieces of 1 MB, of 100 KB, and of 4 to 20 KB.
LARGEST = {"counts": (1, 2, 4), "larger": (60, 200, 600), "text": MB}
LARGE = {"counts": (3, 6, 12), "larger": (300, 1000, 3000), "text": MB // 10}
LONG = {"counts": (3, 6, 12), "larger": (100, 200, 400)}
WIDE = {"counts": (80, 160, 320), "larger": (500, 1000, 2000), "room": 20 * MB, "words": ("--width", "4096", "--show")}
TALL = {"counts": (5, 10, 20), "larger": (400, 800, 1600), "room": 40 * MB, "words": ("--height", "4096", "--show")}
STREAMS = [
    Stream("one run of ASCII", one_text, counts=(100, 1000, 10_000), larger=(2000, 4000, 10_000), grows=1, most=50),
    Stream("one run of wide characters", again("日本語の文字"), grows=1),
    Stream("one run of letters with a mark", again("e\u0301"), grows=1),
    Stream("marks on one letter", again("\u0301"), b"a", grows=1),
    Stream("a ZWJ chain", again("\u200d👩"), "👩".encode(), grows=1),
    Stream("a chain of flags", again("🇫"), grows=1),
    Stream("a chain of jamo", again("ᄀ"), grows=1),
    Stream("a large cluster in each cell", large_clusters),
    Stream("one title", one_text, b"\x1b]2;", b"\x07", grows=1),
    Stream("titles of 1 MB", titles(MB), **LARGEST),
    Stream("titles of 100 KB", titles(MB // 10), **LARGE),
    Stream("titles of 100 KB, updates", titles(MB // 10), words=("--every", "4096"), **LARGE),
    Stream("titles of 1 MB, one update", titles(MB), words=("--every", "4294967295"), **LARGEST),
    Stream("small titles", small_titles),
    Stream("requests, one update", again("\x1b[5n"), words=("--every", "4294967295")),
    Stream("one link", one_word, b"\x1b]8;;http://example.com/", b"\x1b\\x", grows=1),
    Stream("links of 1 MB", links(MB, b"\r"), **LARGEST),
    Stream("links of 100 KB", links(MB // 10, b"\r"), **LARGE),
    Stream("a link of 1 KB in each cell", links(1000)),
    Stream("a link for each letter", small_links),
    Stream("OSC without an end", one_text, b"\x1b]2;", grows=1),
    # (a slice and a vector for each part while the command is read: 18 bytes for each byte where all parts are empty)
    Stream("OSC of many parts", again(";"), b"\x1b]8", b"\x07", grows=9),
    Stream("DCS body", one_text, b"\x1bP1$r"),
    Stream("sixel", again(SIXEL), counts=(12, 24, 48), larger=(500, 1000, 2000)),
    Stream("APC body", one_text, b"\x1b_"),
    Stream("ESC ESC", again("\x1b")),
    Stream("CAN CAN", again("\x18")),
    Stream("CSI CAN", again("\x1b[\x18")),
    Stream("a list without an end", again("1;"), b"\x1b["),
    Stream("lists of 10,000 numbers", again(LIST), **LONG),
    Stream("SGR of 31 numbers", again("\x1b[" + "38;2;1;2;3;4;" * 5 + "7m")),
    Stream("stray bytes 80h to FFh", again(bytes(range(0x80, 0x100))), grows=3),
    Stream("Latin-1 text", latin_1, grows=1.5),
    Stream("torn UTF-8", torn),
    Stream("random bytes", random_bytes),
    Stream("NUL", again("\0")),
    Stream("LF alone", again("\n")),
    Stream("CUP alone", again("\x1b[H")),
    Stream("ED 2 alone", again("\x1b[2J")),
    Stream("ED 2 of a written screen", again("\x1b[2J\x1b[24;80Hx")),
    Stream("RI alone", again("\x1bM")),
    Stream("RIS alone", again("\x1bc")),
    Stream("SU by 2^32 - 1", again(f"\x1b[{MOST}S")),
    Stream("counts of 2^32 - 1", in_turn([f"\x1b[{MOST}{it}" for it in "@ABCDEFGHIJKLMPSTXZ`abdefr"])),
    Stream("reports", again("\x1b[6n\x1b[5n\x1b[c")),
    Stream("wide characters that are split", again("\x1b[1;1H日\x1b[1;2H日\x1b[1;3Hx")),
    Stream("insertions and deletions", in_turn(EDITS)),
    Stream("rows of 4096 columns", lambda number: FULL_ROW, **WIDE),
    Stream("ED 2 on 4096 rows", lambda number: b"\x1b[2J" * 20, **TALL),
    Stream("RIS on 4096 rows", lambda number: b"\x1bc" * 20, **TALL),
    Stream("SU on 4096 rows", lambda number: b"\x1b[S" * 20, **TALL),
    Stream("RI on 4096 rows", lambda number: b"\x1bM" * 20, **TALL),
    Stream("ED 2, updates each 64 bytes", again("\x1b[2Jx"), words=("--every", "64")),
    Stream("SU, updates each 64 bytes", again("\x1b[Sx"), words=("--every", "64")),
    Repeated("resizes", one_text, counts=(20, 40, 80), larger=(200, 400, 800), words=("resizes",)),
]
# Columns and rows of screens whose first update is measured.
SCREENS = ((80, 24), (400, 100), (4096, 24), (4096, 4096))
