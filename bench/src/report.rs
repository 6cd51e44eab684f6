use crate::figures::Figures;
use crate::sheet::Sheet;
use std::io::{self, Write};

fn write_figures(out: &mut impl Write, sheet: &Sheet) -> io::Result<()> {
    let figures = Figures::of(sheet);
    let verdict = if figures.margin < 0 { "late" } else { "keeps" };
    writeln!(out, "goal cycle parts margin verdict")?;
    writeln!(
        out,
        "{} {} {} {} {}",
        sheet.goal, figures.cycle, figures.parts, figures.margin, verdict
    )?;
    writeln!(out, "\ntask lead pace alone start load")?;
    for (at, task) in sheet.tasks.iter().enumerate() {
        let span = figures.spans[at];
        let (start, load) = (figures.starts[at], figures.loads[at]);
        writeln!(
            out,
            "{} {} {} {} {} {}",
            task.name, span.lead, span.pace, span.alone, start, load
        )?;
    }
    writeln!(out, "\ncritical")?;
    figures
        .critical
        .iter()
        .try_for_each(|task| writeln!(out, "{}", sheet.tasks[*task].name))
}

/// What `bounds` writes of a text.
pub fn report(out: &mut impl Write, text: &[u8]) -> io::Result<()> {
    match Sheet::read(text) {
        Ok(sheet) => write_figures(out, &sheet),
        Err(fault) => writeln!(out, "{fault}"),
    }
}
