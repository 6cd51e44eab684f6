use crate::fault::Fault;
use crate::servers::{Fixed, Kind, Server, CEILING};
use crate::text::{Fields, Line};

const TASK_HEADING: &[u8] = b"task time kind period slice phase inner inslice inphase inlet";
const MOST_BYTES: usize = 8192;
const MOST_TASKS: usize = 16;
const MOST_EDGES: usize = 48;
const FIRST_TASK_LINE: usize = 5;

pub struct Task {
    pub name: String,
    pub time: u64,
    pub server: Server,
    pub inlet: bool,
}

#[derive(Clone, Copy)]
pub struct Edge {
    pub from: usize,
    pub to: usize,
    pub tokens: u64,
}

pub struct Sheet {
    pub goal: u64,
    pub tasks: Vec<Task>,
    pub edges: Vec<Edge>,
}

struct Lines<'a> {
    rest: &'a [u8],
    read: usize,
}

impl<'a> Lines<'a> {
    fn next(&mut self) -> Result<Line<'a>, Fault> {
        self.read += 1;
        if self.rest.is_empty() {
            return Err(Fault::reader(3, self.read, 0));
        }
        let end = self
            .rest
            .iter()
            .position(|b| *b == b'\n')
            .map_or(self.rest.len(), |at| at + 1);
        let (line, rest) = self.rest.split_at(end);
        self.rest = rest;
        Line::new(line, self.read)
    }
}

fn read_goal(line: Line) -> Result<u64, Fault> {
    if line.bytes.is_empty() {
        return line.refuse(3);
    }
    line.fields::<1>()?.number(1, 1..=999_999_999)
}

/// The server that fields 3 to 9 tell, or none where their settings are of no server.
fn read_server(fields: &Fields<10>) -> Result<Option<Server>, Fault> {
    let kind = match fields.at(3) {
        b"own" => Kind::own,
        b"fixed" => Kind::fixed,
        b"float" => Kind::float,
        _ => return fields.refuse(6, 3),
    };
    let period = fields.number(4, 1..=65_535)?;
    let slice = fields.number(5, 1..=65_535)?;
    let phase = fields.number(6, 0..=65_534)?;
    let inner_period = fields.number(7, 0..=65_535)?;
    let inner_slice = fields.number(8, 0..=65_535)?;
    let inner_phase = fields.number(9, 0..=65_534)?;
    let kind = kind(period, slice, phase);
    Ok(match (inner_period, inner_slice, inner_phase) {
        (0, 0, 0) => kind.map(|kind| Server { kind, inner: None }),
        (period, slice, phase) => {
            kind.zip(Fixed::new(period, slice, phase))
                .map(|(kind, inner)| Server {
                    kind,
                    inner: Some(inner),
                })
        }
    })
}

fn read_task(line: Line, tasks: &[Task]) -> Result<Task, Fault> {
    if tasks.len() == MOST_TASKS {
        return line.refuse(9);
    }
    let fields = line.fields::<10>()?;
    let name = fields.name(1)?;
    let time = fields.number(2, 1..=65_535)?;
    let server = read_server(&fields)?;
    let inlet = fields.number(10, 0..=1)? == 1;
    let name = String::from_utf8_lossy(name).into_owned();
    if tasks.iter().any(|task| task.name == name) {
        return fields.refuse(7, 1);
    }
    let server = server.ok_or(Fault::server(10, line.number))?;
    Ok(Task {
        name,
        time,
        server,
        inlet,
    })
}

fn read_edge(line: Line, tasks: &[Task], edges: usize) -> Result<Edge, Fault> {
    if line.bytes.is_empty() {
        return line.refuse(3);
    }
    if edges == MOST_EDGES {
        return line.refuse(9);
    }
    let fields = line.fields::<3>()?;
    let task_at = |field| {
        let name = fields.name(field)?;
        let task = tasks.iter().position(|task| task.name.as_bytes() == name);
        task.map_or_else(|| fields.refuse(8, field), Ok)
    };
    Ok(Edge {
        from: task_at(1)?,
        to: task_at(2)?,
        tokens: fields.number(3, 0..=255)?,
    })
}

impl Sheet {
    pub fn read(text: &[u8]) -> Result<Sheet, Fault> {
        if text.is_empty() || text.len() > MOST_BYTES {
            return Err(Fault::reader(1, 0, 0));
        }
        let mut lines = Lines {
            rest: text,
            read: 0,
        };
        lines.next()?.is(b"goal")?;
        let goal = read_goal(lines.next()?)?;
        lines.next()?.is(b"")?;
        lines.next()?.is(TASK_HEADING)?;
        let mut tasks = Vec::new();
        let mut line = lines.next()?;
        while !line.bytes.is_empty() {
            tasks.push(read_task(line, &tasks)?);
            line = lines.next()?;
        }
        if tasks.is_empty() {
            return line.refuse(9);
        }
        lines.next()?.is(b"from to tokens")?;
        let mut edges = Vec::new();
        while !lines.rest.is_empty() {
            edges.push(read_edge(lines.next()?, &tasks, edges.len())?);
        }
        let sheet = Sheet { goal, tasks, edges };
        sheet.check_rings()?;
        sheet.check_figures()?;
        Ok(sheet)
    }

    /// Whether a task is met again along edges that hold no token.
    fn is_on_empty_ring(&self, task: usize) -> bool {
        let mut met = vec![false; self.tasks.len()];
        let mut next = vec![task];
        while let Some(from) = next.pop() {
            for edge in self
                .edges
                .iter()
                .filter(|edge| edge.from == from && edge.tokens == 0)
            {
                if !met[edge.to] {
                    met[edge.to] = true;
                    next.push(edge.to);
                }
            }
        }
        met[task]
    }

    fn check_rings(&self) -> Result<(), Fault> {
        match (0..self.tasks.len()).find(|task| self.is_on_empty_ring(*task)) {
            Some(task) => Err(Fault::graph(11, FIRST_TASK_LINE + task)),
            None => Ok(()),
        }
    }

    fn check_figures(&self) -> Result<(), Fault> {
        let is_above = |task: &Task| {
            let spent = task.server.lead() + task.server.pace(task.time);
            task.server.worst(task.time).max(spent) > CEILING
        };
        match self.tasks.iter().position(is_above) {
            Some(task) => Err(Fault::graph(12, FIRST_TASK_LINE + task)),
            None => Ok(()),
        }
    }

    /// The tasks in an order in which every edge without tokens goes forward.
    pub fn order(&self) -> Vec<usize> {
        let mut order = Vec::new();
        while order.len() < self.tasks.len() {
            let is_next = |task: &usize| {
                !order.contains(task)
                    && self
                        .edges
                        .iter()
                        .all(|e| e.to != *task || e.tokens > 0 || order.contains(&e.from))
            };
            let Some(next) = (0..self.tasks.len()).find(is_next) else {
                break;
            };
            order.push(next);
        }
        order
    }
}
