"""A terminal's screen, kept from an application's bytes: the library rilqamyn, by ctypes.

    with rilqamyn.Screen(80, 24) as screen:
        screen.feed(output)
        print(screen.text())

The library is RILQAMYN_LIBRARY, where that is set, or else librilqamyn.so where the system finds it. Every call may
raise Refused. A screen is used by one thread at a time.
"""
import ctypes
import enum
import os


class Code(enum.IntEnum):
    """Why a call was refused; include/rilqamyn.h says which call answers which."""

    NOT_OPEN = 1
    IS_OPEN = 2
    MEMORY = 3
    NUMBER = 4
    FAILED = 5
    SIZE = 6
    RANGE = 7
    OTHER_FAILED = 8


class Refused(Exception):
    """A call was refused."""

    def __init__(self, call, code):
        super().__init__(f"{call}: {Code(code).name}")
        self.code = Code(code)


class Profile(enum.IntEnum):
    PLAIN = 0
    XTERM = 1


class Format(enum.IntEnum):
    """How a whole screen is written: as rows with control sequences, as an element <pre>, as a picture, as JSON."""

    ANSI = 0
    HTML = 1
    SVG = 2
    JSON = 3


class Terminal(ctypes.Structure):
    _fields_ = [("at", ctypes.c_void_p), ("is_open", ctypes.c_bool)]


class Bytes(ctypes.Structure):
    _fields_ = [("at", ctypes.c_void_p), ("len", ctypes.c_size_t)]

    def copied(self):
        return ctypes.string_at(self.at, self.len)


class State(ctypes.Structure):
    """What a terminal tells of itself. Columns and rows count from 0."""

    _fields_ = [
        *((name, ctypes.c_size_t) for name in ("number", "width", "height", "cursor_column", "cursor_row")),
        ("cursor_shape", ctypes.c_uint32),
        ("cursor_is_visible", ctypes.c_bool),
        ("is_failed", ctypes.c_bool),
    ]


class Modes(ctypes.Structure):
    """The modes of a terminal of the profile xterm; include/rilqamyn.h says what the numbers are."""

    _fields_ = [
        *((name, ctypes.c_bool) for name in ("application_cursor", "application_keypad", "reverse_video")),
        *((name, ctypes.c_bool) for name in ("blinking_cursor", "focus_tracking", "alternate_scroll")),
        *((name, ctypes.c_bool) for name in ("bracketed_paste", "synchronized_output")),
        *((name, ctypes.c_uint8) for name in ("mouse_protocol_mode", "mouse_protocol_encoding", "cursor_style")),
        ("alternate_screen", ctypes.c_bool),
    ]


LIBRARY = ctypes.CDLL(os.environ.get("RILQAMYN_LIBRARY", "librilqamyn.so"))
HANDLE, SIZE, ANSWER = ctypes.POINTER(Terminal), ctypes.c_size_t, ctypes.POINTER(Bytes)
ARGUMENTS = {
    "new": [HANDLE, SIZE, SIZE, ctypes.c_uint32],
    "feed": [HANDLE, ctypes.c_char_p, SIZE],
    "settle": [HANDLE],
    "resize": [HANDLE, SIZE, SIZE],
    "update": [HANDLE, SIZE, ctypes.POINTER(SIZE), ANSWER],
    "patch": [HANDLE, HANDLE, ctypes.POINTER(SIZE), ANSWER],
    "take_replies": [HANDLE, ANSWER],
    "forget_before": [HANDLE, SIZE],
    "state": [HANDLE, ctypes.POINTER(State)],
    "modes": [HANDLE, ctypes.POINTER(Modes)],
    "is_alternate": [HANDLE, ctypes.POINTER(ctypes.c_bool)],
    "title": [HANDLE, ANSWER],
    "row_text": [HANDLE, SIZE, ANSWER],
    "screen_text": [HANDLE, ANSWER],
    "screen": [HANDLE, ctypes.c_uint32, ANSWER],
}
for name, arguments in ARGUMENTS.items():
    function = getattr(LIBRARY, "rilqamyn_" + name)
    function.argtypes, function.restype = arguments, ctypes.c_uint32
LIBRARY.rilqamyn_free.argtypes, LIBRARY.rilqamyn_free.restype = [HANDLE], None


class Screen:
    """A terminal of some columns and rows. close() frees it, and so does the end of a `with`."""

    def __init__(self, width=80, height=24, profile=Profile.PLAIN):
        self.terminal = Terminal()
        self.call("new", width, height, profile)

    def __enter__(self):
        return self

    def __exit__(self, *_):
        self.close()

    def __del__(self):
        self.close()

    def close(self):
        LIBRARY.rilqamyn_free(self.terminal)

    def call(self, name, *arguments):
        code = getattr(LIBRARY, "rilqamyn_" + name)(self.terminal, *arguments)
        if code:
            raise Refused(name, code)

    def answer(self, name, *arguments):
        out = Bytes()
        self.call(name, *arguments, out)
        return out.copied()

    def feed(self, output):
        """Reads bytes that an application wrote; they may end anywhere."""
        self.call("feed", output, len(output))

    def settle(self):
        """Ends the run of printed characters that is still held."""
        self.call("settle")

    def resize(self, width, height):
        self.call("resize", width, height)

    def update(self, since):
        """Returns the number of changes, and the bytes for a viewer that has seen those up to the number `since`."""
        now = SIZE()
        out = self.answer("update", since, now)
        return now.value, out

    def patch(self, shown):
        """Returns the number of changes, and the bytes for a viewer that shows the screen `shown`."""
        now = SIZE()
        out = self.answer("patch", shown.terminal, now)
        return now.value, out

    def take_replies(self):
        """Returns the bytes that the application is to read, and leaves none."""
        return self.answer("take_replies")

    def forget_before(self, number):
        self.call("forget_before", number)

    def state(self):
        state = State()
        self.call("state", state)
        return state

    def modes(self):
        """Returns the modes of the profile xterm; a plain screen has none, and refuses with Code.RANGE."""
        modes = Modes()
        self.call("modes", modes)
        return modes

    def is_alternate(self):
        """Returns whether the alternate screen is shown, which a plain screen doesn't have."""
        is_alternate = ctypes.c_bool()
        self.call("is_alternate", is_alternate)
        return is_alternate.value

    def title(self):
        return self.answer("title").decode()

    def row(self, row):
        """Returns the text of a row, which counts from 0."""
        return self.answer("row_text", row).decode()

    def text(self):
        """Returns the rows, each with a line feed after it; what was fed shows in full."""
        self.settle()
        return self.answer("screen_text").decode()

    def written(self, format):
        """Returns the whole screen in a format; what was fed shows in full."""
        self.settle()
        return self.answer("screen", format).decode()
