//! Plays the calls on standard input on the tasks of the sheet in the file `sheet`.

use plain::calls::Call;
use plain::fault::Fault;
use plain::player::Player;
use plain::sheet::Sheet;
use plain::text::Line;
use std::io::{self, BufRead, BufWriter, Write};

/// Plays every line, up to one that is refused.
fn play(
    player: &mut Player,
    calls: &mut impl BufRead,
    out: &mut impl Write,
) -> io::Result<Result<(), Fault>> {
    let mut text = Vec::new();
    let mut number = 0;
    while calls.read_until(b'\n', &mut text)? > 0 || number == 0 {
        number += 1;
        if text.is_empty() {
            return Ok(Err(Fault::reader(3, 1, 0)));
        }
        let line = Line::new(&text, number);
        if number == 1 {
            if let Err(fault) = line.and_then(|line| line.is(b"call task value")) {
                return Ok(Err(fault));
            }
        } else {
            match line.and_then(Call::read) {
                Ok(call) => player.play(call, out)?,
                Err(fault) => return Ok(Err(fault)),
            }
        }
        out.flush()?;
        text.clear();
    }
    Ok(Ok(()))
}

fn main() -> io::Result<()> {
    let mut out = BufWriter::new(io::stdout().lock());
    let sheet = match Sheet::read(&std::fs::read("sheet").unwrap_or_default()) {
        Ok(sheet) => sheet,
        Err(fault) => return writeln!(out, "{fault}"),
    };
    writeln!(out, "task firing finish bound")?;
    let played = play(&mut Player::new(sheet), &mut io::stdin().lock(), &mut out)?;
    if let Err(fault) = played {
        writeln!(out, "{fault}")?;
    }
    out.flush()
}
