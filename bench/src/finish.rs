use crate::fault::Fault;
use crate::servers::CEILING;
use crate::sheet::Sheet;

pub const MOST_FIRINGS: usize = 256;

/// The finish bounds of firings as they end, for the first 256 of each task.
pub struct Ledger {
    /// The worst wait of 1 to 256 firings in a row, of each task.
    waits: Vec<Vec<u64>>,
    into: Vec<Vec<(usize, usize)>>,
    inlets: Vec<bool>,
    arrivals: Vec<Vec<u64>>,
    ready: Vec<Vec<u64>>,
    bounds: Vec<Vec<u64>>,
}

impl Ledger {
    pub fn new(sheet: &Sheet) -> Ledger {
        let rows = || {
            sheet
                .tasks
                .iter()
                .map(|_| Vec::with_capacity(MOST_FIRINGS))
                .collect()
        };
        let into = |task: usize| {
            let edges = sheet.edges.iter().filter(|edge| edge.to == task);
            edges
                .map(|edge| (edge.from, edge.tokens as usize))
                .collect()
        };
        let waits = sheet.tasks.iter().map(|task| {
            (1..=MOST_FIRINGS as u64)
                .map(|m| task.server.worst(m * task.time).min(CEILING + 1))
                .collect()
        });
        Ledger {
            waits: waits.collect(),
            into: (0..sheet.tasks.len()).map(into).collect(),
            inlets: sheet.tasks.iter().map(|task| task.inlet).collect(),
            arrivals: rows(),
            ready: rows(),
            bounds: rows(),
        }
    }

    pub fn arrive(&mut self, task: usize, clock: u64) {
        if self.arrivals[task].len() < MOST_FIRINGS {
            self.arrivals[task].push(clock);
        }
    }

    /// The bound of the task's next firing; 0 where it is above the ceiling or past the first 256.
    pub fn bound(&mut self, task: usize) -> u64 {
        let firing = self.bounds[task].len();
        if firing == MOST_FIRINGS {
            return 0;
        }
        let fed = self.into[task]
            .iter()
            .filter(|(_, tokens)| *tokens <= firing);
        let fed = fed
            .map(|(from, tokens)| self.bounds[*from][firing - tokens])
            .max();
        let arrival = if self.inlets[task] {
            self.arrivals[task][firing]
        } else {
            0
        };
        self.ready[task].push(arrival.max(fed.unwrap_or(0)));
        let sums = self.ready[task]
            .iter()
            .zip(self.waits[task][..=firing].iter().rev())
            .map(|(ready, wait)| ready + wait);
        let bound = sums.max().unwrap_or(0).min(CEILING + 1);
        self.bounds[task].push(bound);
        if bound <= CEILING {
            bound
        } else {
            0
        }
    }
}

/// A table under way.
struct Filling<'a> {
    sheet: &'a Sheet,
    n: usize,
    times: &'a [u64],
    /// Which row of the times is each task's, if it has an inlet.
    rows: Vec<Option<usize>>,
    ready: Vec<u64>,
}

impl Filling<'_> {
    fn ready_at(&self, table: &[u64], v: usize, i: usize) -> u64 {
        let edges = self.sheet.edges.iter();
        let fed = edges
            .filter(|edge| edge.to == v && edge.tokens as usize <= i)
            .map(|edge| table[edge.from * self.n + i - edge.tokens as usize]);
        let arrival = self.rows[v].map_or(0, |row| self.times[row * self.n + i]);
        fed.fold(arrival, u64::max)
    }

    /// The finish bound by the rule as it is written: the worst wait is asked for at every firing k up to i.
    fn bound(&mut self, table: &[u64], v: usize, i: usize) -> u64 {
        self.ready[v * self.n + i] = self.ready_at(table, v, i);
        let task = &self.sheet.tasks[v];
        let wait = |k: usize| task.server.worst((i - k + 1) as u64 * task.time);
        let sums = (0..=i).map(|k| self.ready[v * self.n + k] + wait(k));
        sums.fold(0, u64::max)
    }
}

/// The row of times of each task that has an inlet.
fn rows_of(sheet: &Sheet) -> Vec<Option<usize>> {
    let mut rows = 0..;
    let tasks = sheet.tasks.iter();
    tasks
        .map(|task| if task.inlet { rows.next() } else { None })
        .collect()
}

pub fn finish_table(
    sheet: &Sheet,
    n: usize,
    times: &[u64],
    table: &mut [u64],
) -> Result<(), Fault> {
    let rows = rows_of(sheet);
    let inlets = rows.iter().flatten().count();
    let entries = sheet.tasks.len() * n;
    if !(1..=MOST_FIRINGS).contains(&n) || times.len() != inlets * n || table.len() != entries {
        return Err(Fault::table(18));
    }
    let falls = |row: &[u64]| row.windows(2).any(|pair| pair[1] < pair[0]);
    if times.iter().any(|time| *time > CEILING) || times.chunks(n).any(falls) {
        return Err(Fault::table(19));
    }
    let ready = vec![0; entries];
    let mut filling = Filling {
        sheet,
        n,
        times,
        rows,
        ready,
    };
    let order = sheet.order();
    for (i, v) in (0..n).flat_map(|i| order.iter().map(move |v| (i, *v))) {
        let bound = filling.bound(table, v, i);
        if bound > CEILING {
            table.fill(0);
            return Err(Fault::table(12));
        }
        table[v * n + i] = bound;
    }
    Ok(())
}
