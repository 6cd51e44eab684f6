use std::fmt;

/// Where a text or a call is refused, and why.
#[derive(Clone, Copy, PartialEq, Eq, Debug)]
pub struct Fault {
    pub layer: &'static str,
    pub number: u32,
    pub line: usize,
    pub field: usize,
}

impl Fault {
    pub fn reader(number: u32, line: usize, field: usize) -> Fault {
        Fault {
            layer: "reader",
            number,
            line,
            field,
        }
    }

    pub fn server(number: u32, line: usize) -> Fault {
        Fault {
            layer: "server",
            number,
            line,
            field: 0,
        }
    }

    pub fn graph(number: u32, line: usize) -> Fault {
        Fault {
            layer: "graph",
            number,
            line,
            field: 0,
        }
    }

    pub fn runner(number: u32) -> Fault {
        Fault {
            layer: "runner",
            number,
            line: 0,
            field: 0,
        }
    }

    pub fn table(number: u32) -> Fault {
        Fault {
            layer: "table",
            number,
            line: 0,
            field: 0,
        }
    }
}

impl fmt::Display for Fault {
    fn fmt(&self, f: &mut fmt::Formatter<'_>) -> fmt::Result {
        write!(
            f,
            "refused {} {} {} {}",
            self.layer, self.number, self.line, self.field
        )
    }
}
