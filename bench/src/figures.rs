use crate::sheet::Sheet;

/// What a task's server tells of a firing.
#[derive(Clone, Copy)]
pub struct Span {
    pub lead: u64,
    pub pace: u64,
    pub alone: u64,
}

pub struct Figures {
    pub cycle: u64,
    pub parts: u64,
    pub margin: i64,
    pub spans: Vec<Span>,
    pub starts: Vec<i64>,
    pub loads: Vec<u64>,
    /// The tasks of the critical ring, from its first in the sheet.
    pub critical: Vec<usize>,
}

struct Arc {
    from: usize,
    to: usize,
    weight: i64,
    tokens: i64,
}

/// Cycle over parts, and the tasks of a ring that has it.
struct Ratio {
    cycle: i64,
    parts: i64,
    ring: Vec<usize>,
}

fn divisor(a: i64, b: i64) -> i64 {
    if b == 0 {
        a
    } else {
        divisor(b, a % b)
    }
}

fn ratio_of(arcs: &[Arc], ring: &[usize]) -> Ratio {
    let weight: i64 = ring.iter().map(|arc| arcs[*arc].weight).sum();
    let tokens: i64 = ring.iter().map(|arc| arcs[*arc].tokens).sum();
    let common = divisor(weight, tokens);
    let mut tasks: Vec<usize> = ring.iter().map(|arc| arcs[*arc].from).collect();
    let first = (0..tasks.len()).min_by_key(|at| tasks[*at]).unwrap_or(0);
    tasks.rotate_left(first);
    Ratio {
        cycle: weight / common,
        parts: tokens / common,
        ring: tasks,
    }
}

/// The arcs of the ring that is met going back from a task by the arcs that raised each start last.
fn ring_behind(arcs: &[Arc], raised_by: &[Option<usize>], task: usize) -> Vec<usize> {
    let back = |task: usize| raised_by[task].map_or(task, |arc| arcs[arc].from);
    let on_ring = raised_by.iter().fold(task, |task, _| back(task));
    let mut ring = Vec::new();
    let mut at = on_ring;
    while let Some(arc) = raised_by[at] {
        ring.push(arc);
        at = arcs[arc].from;
        if at == on_ring {
            break;
        }
    }
    ring.reverse();
    ring
}

/// The least start figures at this ratio, or the arcs of a ring above it.
fn starts_at(spans: &[Span], arcs: &[Arc], ratio: &Ratio) -> Result<Vec<i64>, Vec<usize>> {
    let mut starts: Vec<i64> = spans
        .iter()
        .map(|span| ratio.parts * (span.lead + span.pace) as i64)
        .collect();
    let mut raised_by = vec![None; spans.len()];
    let mut last = None;
    for _ in 0..=spans.len() {
        last = None;
        for (number, arc) in arcs.iter().enumerate() {
            let start = starts[arc.from] + ratio.parts * arc.weight - ratio.cycle * arc.tokens;
            if start > starts[arc.to] {
                starts[arc.to] = start;
                raised_by[arc.to] = Some(number);
                last = Some(arc.to);
            }
        }
        if last.is_none() {
            return Ok(starts);
        }
    }
    match last {
        Some(task) => Err(ring_behind(arcs, &raised_by, task)),
        None => Ok(starts),
    }
}

fn spans_of(sheet: &Sheet) -> Vec<Span> {
    let tasks = sheet.tasks.iter();
    tasks
        .map(|task| Span {
            lead: task.server.lead(),
            pace: task.server.pace(task.time),
            alone: task.server.worst(task.time),
        })
        .collect()
}

fn arcs_of(sheet: &Sheet, spans: &[Span]) -> Vec<Arc> {
    let edges = sheet.edges.iter();
    edges
        .map(|edge| Arc {
            from: edge.from,
            to: edge.to,
            weight: (spans[edge.to].lead + spans[edge.to].pace) as i64,
            tokens: edge.tokens as i64,
        })
        .collect()
}

/// The ratio of the slowest task by itself.
fn slowest(spans: &[Span]) -> Ratio {
    let tasks = (0..spans.len()).rev();
    let task = tasks.max_by_key(|task| spans[*task].pace).unwrap_or(0);
    Ratio {
        cycle: spans[task].pace as i64,
        parts: 1,
        ring: vec![task],
    }
}

/// 1000 × pace × parts ÷ cycle, halves up.
fn load_of(span: &Span, cycle: u64, parts: u64) -> u64 {
    (2000 * span.pace * parts + cycle) / (2 * cycle)
}

impl Figures {
    pub fn of(sheet: &Sheet) -> Figures {
        let spans = spans_of(sheet);
        let arcs = arcs_of(sheet, &spans);
        let mut ratio = slowest(&spans);
        // The ratio grows by rings above it until there is none.
        let starts = loop {
            match starts_at(&spans, &arcs, &ratio) {
                Ok(starts) => break starts,
                Err(ring) => ratio = ratio_of(&arcs, &ring),
            }
        };
        let (cycle, parts) = (ratio.cycle as u64, ratio.parts as u64);
        let loads = spans
            .iter()
            .map(|span| load_of(span, cycle, parts))
            .collect();
        Figures {
            cycle,
            parts,
            margin: sheet.goal as i64 * ratio.parts - ratio.cycle,
            loads,
            spans,
            starts,
            critical: ratio.ring,
        }
    }
}
