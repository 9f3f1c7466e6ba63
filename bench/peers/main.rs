//! Reads standard input, 4096 bytes at a time, into the terminal that the first word names, of 80 columns and 24 rows.
use alacritty_terminal::{ansi, config::Config, event::VoidListener, grid::Dimensions, Term};
use std::io::Read;

struct Size;

impl Dimensions for Size {
    fn total_lines(&self) -> usize {
        24
    }
    fn screen_lines(&self) -> usize {
        24
    }
    fn columns(&self) -> usize {
        80
    }
}

fn each_read(mut take: impl FnMut(&[u8])) {
    let mut buffer = [0; 4096];
    let mut input = std::io::stdin().lock();
    loop {
        match input.read(&mut buffer) {
            Ok(0) | Err(_) => return,
            Ok(count) => take(&buffer[..count]),
        }
    }
}

fn main() {
    if std::env::args().nth(1).as_deref() == Some("vt100") {
        let mut parser = vt100::Parser::new(24, 80, 0);
        each_read(|bytes| parser.process(bytes));
        print!("{}", parser.screen().contents());
        return;
    }
    let mut config = Config::default();
    config.scrolling.set_history(0);
    let mut term = Term::new(&config, &Size, VoidListener);
    let mut processor = ansi::Processor::new();
    each_read(|bytes| bytes.iter().for_each(|byte| processor.advance(&mut term, *byte)));
    print!("{}", term.renderable_content().cursor.point.line.0);
}
