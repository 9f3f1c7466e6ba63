//! The library rilqamyn for Rust: `Terminal`, and what it answers. `include/rilqamyn.h` says what each call does.
//!
//! An answer borrows the terminal, so no call can be made while it is in use; a row is a copy.
use std::{fmt, ptr, slice, str};

mod c {
    #[repr(C)]
    pub struct Handle {
        pub at: *mut u8,
        pub is_open: bool,
    }

    #[repr(C)]
    pub struct Bytes {
        pub at: *const u8,
        pub len: usize,
    }

    #[repr(C)]
    pub struct Row {
        pub cells: *const super::Cell,
        pub count: usize,
        pub text: Bytes,
        pub links: Bytes,
    }

    extern "C" {
        pub fn rilqamyn_new(t: *mut Handle, width: usize, height: usize, profile: u32) -> u32;
        pub fn rilqamyn_free(t: *mut Handle);
        pub fn rilqamyn_feed(t: *mut Handle, bytes: *const u8, len: usize) -> u32;
        pub fn rilqamyn_settle(t: *mut Handle) -> u32;
        pub fn rilqamyn_resize(t: *mut Handle, width: usize, height: usize) -> u32;
        pub fn rilqamyn_update(t: *mut Handle, since: usize, now: *mut usize, out: *mut Bytes) -> u32;
        pub fn rilqamyn_patch(t: *mut Handle, shown: *mut Handle, now: *mut usize, out: *mut Bytes) -> u32;
        pub fn rilqamyn_take_replies(t: *mut Handle, out: *mut Bytes) -> u32;
        pub fn rilqamyn_forget_before(t: *mut Handle, number: usize) -> u32;
        pub fn rilqamyn_state(t: *mut Handle, out: *mut super::State) -> u32;
        pub fn rilqamyn_modes(t: *mut Handle, out: *mut super::Modes) -> u32;
        pub fn rilqamyn_is_alternate(t: *mut Handle, out: *mut bool) -> u32;
        pub fn rilqamyn_title(t: *mut Handle, out: *mut Bytes) -> u32;
        pub fn rilqamyn_row(t: *mut Handle, row: usize, out: *mut Row) -> u32;
        pub fn rilqamyn_screen_text(t: *mut Handle, out: *mut Bytes) -> u32;
        pub fn rilqamyn_screen(t: *mut Handle, format: u32, out: *mut Bytes) -> u32;
    }
}

/// Why a call was refused.
#[derive(Clone, Copy, Debug, PartialEq, Eq)]
pub enum Refused {
    Memory,
    Number,
    Failed,
    Size,
    Range,
    OtherFailed,
}

impl fmt::Display for Refused {
    fn fmt(&self, f: &mut fmt::Formatter) -> fmt::Result {
        f.write_str(match self {
            Refused::Memory => "memory was refused",
            Refused::Number => "the number of changes has no next one",
            Refused::Failed => "the terminal has failed",
            Refused::Size => "this is no size of a screen, or two screens have different sizes",
            Refused::Range => "there is no such row, profile or format, or no modes",
            Refused::OtherFailed => "the other terminal has failed",
        })
    }
}

impl std::error::Error for Refused {}

// What a code says. The handle of a `Terminal` is open, so that no other code comes.
fn done(code: u32) -> Result<(), Refused> {
    match code {
        0 => Ok(()),
        3 => Err(Refused::Memory),
        4 => Err(Refused::Number),
        5 => Err(Refused::Failed),
        6 => Err(Refused::Size),
        7 => Err(Refused::Range),
        8 => Err(Refused::OtherFailed),
        _ => unreachable!("code {}", code),
    }
}

/// Which control functions a terminal has.
#[derive(Clone, Copy)]
pub enum Profile {
    Plain = 0,
    Xterm = 1,
}

/// How a whole screen is written: as rows with control sequences, as an element `<pre>`, as a picture, as JSON.
#[derive(Clone, Copy)]
pub enum Format {
    Ansi = 0,
    Html = 1,
    Svg = 2,
    Json = 3,
}

#[repr(C)]
#[derive(Clone, Copy, Debug, Default, PartialEq, Eq)]
pub struct State {
    pub number: usize,
    pub width: usize,
    pub height: usize,
    pub cursor_column: usize,
    pub cursor_row: usize,
    pub cursor_shape: u32,
    pub cursor_is_visible: bool,
    pub is_failed: bool,
}

/// The modes of a terminal of the profile xterm; the header says what the numbers are.
#[repr(C)]
#[derive(Clone, Copy, Debug, Default, PartialEq, Eq)]
pub struct Modes {
    pub application_cursor: bool,
    pub application_keypad: bool,
    pub reverse_video: bool,
    pub blinking_cursor: bool,
    pub focus_tracking: bool,
    pub alternate_scroll: bool,
    pub bracketed_paste: bool,
    pub synchronized_output: bool,
    pub mouse_protocol_mode: u8,
    pub mouse_protocol_encoding: u8,
    pub cursor_style: u8,
    pub alternate_screen: bool,
}

#[repr(C)]
#[derive(Clone, Copy, Debug, PartialEq, Eq)]
pub struct Color {
    pub kind: u8,
    pub index: u8,
    pub red: u8,
    pub green: u8,
    pub blue: u8,
    pub alpha: u8,
}

#[repr(C)]
#[derive(Clone, Copy, Debug, PartialEq, Eq)]
pub struct Style {
    pub intensity: u8,
    pub underline: u8,
    pub blink: u8,
    pub vertical_align: u8,
    pub semantic_type: u8,
    pub is_italic: bool,
    pub is_reverse: bool,
    pub is_strikethrough: bool,
    pub is_invisible: bool,
    pub is_wrapped: bool,
    pub is_overline: bool,
    pub foreground: Color,
    pub background: Color,
    pub underline_color: Color,
}

#[repr(C)]
#[derive(Clone, Copy, Debug, PartialEq, Eq)]
pub struct Cell {
    pub column: usize,
    pub width: usize,
    text_at: usize,
    text_len: usize,
    link_at: usize,
    link_len: usize,
    pub style: Style,
}

/// A row of a terminal.
pub struct Row {
    cells: Vec<Cell>,
    text: String,
    links: String,
}

impl Row {
    /// The texts of the cells, joined.
    pub fn text(&self) -> &str {
        &self.text
    }

    /// Each cell with its text and the URI of its link, which is empty where there is none.
    pub fn cells(&self) -> impl Iterator<Item = (&Cell, &str, &str)> {
        self.cells.iter().map(move |cell| {
            let link = &self.links[cell.link_at..cell.link_at + cell.link_len];
            (cell, &self.text[cell.text_at..cell.text_at + cell.text_len], link)
        })
    }
}

/// The rows of a terminal, from the top.
pub struct Rows<'a> {
    terminal: &'a mut Terminal,
    left: std::ops::Range<usize>,
}

impl Iterator for Rows<'_> {
    type Item = Result<Row, Refused>;

    fn next(&mut self) -> Option<Result<Row, Refused>> {
        let row = self.left.next()?;
        Some(self.terminal.row(row))
    }
}

/// A terminal. It may move between threads; each call takes it by `&mut`.
pub struct Terminal(c::Handle);

// SAFETY: no call depends on its thread. What a handle owns shares links by counts that aren't atomic, but these are
// shared within it alone: an answer is bytes.
unsafe impl Send for Terminal {}

// In each call below the declaration is that of the header, the handle is open and no other call uses it, a slice's
// pointer isn't null and is lent for the call, and an answer is as long as the borrow of the terminal. So each is safe.
impl Terminal {
    pub fn new(width: usize, height: usize, profile: Profile) -> Result<Terminal, Refused> {
        let mut handle = c::Handle { at: ptr::null_mut(), is_open: false };
        done(unsafe { c::rilqamyn_new(&mut handle, width, height, profile as u32) })?;
        Ok(Terminal(handle))
    }

    pub fn feed(&mut self, bytes: &[u8]) -> Result<(), Refused> {
        done(unsafe { c::rilqamyn_feed(&mut self.0, bytes.as_ptr(), bytes.len()) })
    }

    pub fn settle(&mut self) -> Result<(), Refused> {
        done(unsafe { c::rilqamyn_settle(&mut self.0) })
    }

    pub fn resize(&mut self, width: usize, height: usize) -> Result<(), Refused> {
        done(unsafe { c::rilqamyn_resize(&mut self.0, width, height) })
    }

    /// The number of changes, and the bytes for a viewer that has seen those up to the number `since`.
    pub fn update(&mut self, since: usize) -> Result<(usize, &[u8]), Refused> {
        let mut now = 0;
        let handle = &mut self.0;
        let out = answer(|out| unsafe { c::rilqamyn_update(handle, since, &mut now, out) })?;
        Ok((now, out))
    }

    /// The number of changes, and the bytes for a viewer that shows the screen of `shown`.
    pub fn patch(&mut self, shown: &mut Terminal) -> Result<(usize, &[u8]), Refused> {
        let mut now = 0;
        let (handle, shown) = (&mut self.0, &mut shown.0);
        let out = answer(|out| unsafe { c::rilqamyn_patch(handle, shown, &mut now, out) })?;
        Ok((now, out))
    }

    pub fn take_replies(&mut self) -> Result<&[u8], Refused> {
        answer(|out| unsafe { c::rilqamyn_take_replies(&mut self.0, out) })
    }

    pub fn forget_before(&mut self, number: usize) -> Result<(), Refused> {
        done(unsafe { c::rilqamyn_forget_before(&mut self.0, number) })
    }

    pub fn state(&mut self) -> Result<State, Refused> {
        let mut state = State::default();
        done(unsafe { c::rilqamyn_state(&mut self.0, &mut state) })?;
        Ok(state)
    }

    /// The modes of the profile xterm; `Refused::Range` of a plain terminal, which has none.
    pub fn modes(&mut self) -> Result<Modes, Refused> {
        let mut modes = Modes::default();
        done(unsafe { c::rilqamyn_modes(&mut self.0, &mut modes) })?;
        Ok(modes)
    }

    /// Whether the alternate screen is shown, which a plain terminal doesn't have.
    pub fn is_alternate(&mut self) -> Result<bool, Refused> {
        let mut is_alternate = false;
        done(unsafe { c::rilqamyn_is_alternate(&mut self.0, &mut is_alternate) })?;
        Ok(is_alternate)
    }

    pub fn title(&mut self) -> Result<&str, Refused> {
        answer(|out| unsafe { c::rilqamyn_title(&mut self.0, out) }).map(text_of)
    }

    pub fn row(&mut self, row: usize) -> Result<Row, Refused> {
        let none = || c::Bytes { at: ptr::null(), len: 0 };
        let mut out = c::Row { cells: ptr::null(), count: 0, text: none(), links: none() };
        done(unsafe { c::rilqamyn_row(&mut self.0, row, &mut out) })?;
        Ok(Row {
            cells: unsafe { slice::from_raw_parts(out.cells, out.count) }.to_vec(),
            text: text_of(unsafe { bytes_of(&out.text) }).to_string(),
            links: text_of(unsafe { bytes_of(&out.links) }).to_string(),
        })
    }

    /// All rows, from the top.
    pub fn rows(&mut self) -> Result<Rows<'_>, Refused> {
        let left = 0..self.state()?.height;
        Ok(Rows { terminal: self, left })
    }

    /// The rows as a text, each with a line feed after it.
    pub fn screen_text(&mut self) -> Result<&str, Refused> {
        answer(|out| unsafe { c::rilqamyn_screen_text(&mut self.0, out) }).map(text_of)
    }

    /// The whole screen in a format.
    pub fn screen(&mut self, format: Format) -> Result<&str, Refused> {
        answer(|out| unsafe { c::rilqamyn_screen(&mut self.0, format as u32, out) }).map(text_of)
    }
}

impl Drop for Terminal {
    fn drop(&mut self) {
        unsafe { c::rilqamyn_free(&mut self.0) }
    }
}

// The answer of a call. The caller bounds its lifetime by that of the terminal.
fn answer<'a>(call: impl FnOnce(&mut c::Bytes) -> u32) -> Result<&'a [u8], Refused> {
    let mut out = c::Bytes { at: ptr::null(), len: 0 };
    done(call(&mut out))?;
    Ok(unsafe { bytes_of(&out) })
}

unsafe fn bytes_of<'a>(bytes: &c::Bytes) -> &'a [u8] {
    slice::from_raw_parts(bytes.at, bytes.len)
}

// Texts of the library are UTF-8.
fn text_of(bytes: &[u8]) -> &str {
    str::from_utf8(bytes).expect("a text of the library is UTF-8")
}
