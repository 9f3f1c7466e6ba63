//! A chain of two terminals: the first reads standard input, and the second an update after every so many bytes; after
//! each the cells of both are compared. Writes the rows of the second.
//!
//!     rustc -O examples/rust/chain.rs -L out -l static=rilqamyn
//!     ./chain 80 24 64 < docs/sessions/vim-80x24.bytes
#[allow(dead_code)]
mod rilqamyn;

use rilqamyn::{Cell, Format, Profile, Refused, Terminal};
use std::error::Error;
use std::io::{self, Read, Write};

// The cells of a terminal, each with its row, its text and its link. Where these lie is no part of it.
fn cells_of(terminal: &mut Terminal) -> Result<Vec<(usize, usize, rilqamyn::Style, String, String)>, Refused> {
    let mut cells = Vec::new();
    for (number, row) in terminal.rows()?.enumerate() {
        let row = row?;
        assert_eq!(row.cells().map(|(_, text, _)| text).collect::<String>(), row.text());
        cells.extend(row.cells().map(|(cell, text, link): (&Cell, &str, &str)| {
            (number, cell.column, cell.style, text.to_string(), link.to_string())
        }));
    }
    Ok(cells)
}

fn main() -> Result<(), Box<dyn Error>> {
    let numbers: Vec<usize> = std::env::args().skip(1).map(|word| word.parse()).collect::<Result<_, _>>()?;
    let (width, height, every) = match numbers[..] {
        [width, height, every] => (width, height, every.max(1)),
        _ => return Err("chain WIDTH HEIGHT EVERY".into()),
    };
    let mut input = Vec::new();
    io::stdin().read_to_end(&mut input)?;
    let mut terminal = Terminal::new(width, height, Profile::Plain)?;
    let mut viewer = Terminal::new(width, height, Profile::Plain)?;
    let mut since = 0;
    for piece in input.chunks(every) {
        terminal.feed(piece)?;
        let (now, update) = terminal.update(since)?;
        viewer.feed(update)?;
        since = now;
        terminal.forget_before(since)?;
        if cells_of(&mut terminal)? != cells_of(&mut viewer)? {
            return Err(format!("the cells differ at change {}", now).into());
        }
    }
    assert_eq!(terminal.screen(Format::Json)?, viewer.screen(Format::Json)?);
    // (no control function leads a plain terminal to modes or to an alternate screen)
    assert_eq!((terminal.modes(), terminal.is_alternate()?), (Err(Refused::Range), false));
    io::stdout().write_all(viewer.screen_text()?.as_bytes())?;
    Ok(())
}
