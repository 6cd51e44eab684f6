use crate::fault::Fault;
use crate::servers::Server;
use crate::sheet::Sheet;

const LAST_CLOCK: u64 = 1_000_000_000;
const MOST_WAITING: u64 = 65_535;

#[derive(Clone, Copy, PartialEq, Eq, Debug)]
pub struct Record {
    pub task: usize,
    pub firing: u64,
    pub clock: u64,
}

#[derive(Clone, Copy)]
enum Stage {
    Idle,
    UnderWay { left: u64 },
}

struct TaskState {
    server: Server,
    stage: Stage,
    ready: bool,
    inlet: Option<u64>,
    need: u64,
    time: u64,
    fired: u64,
    into: Vec<usize>,
    out: Vec<usize>,
}

impl TaskState {
    fn is_ready(&self, held: &[u64]) -> bool {
        matches!(self.stage, Stage::Idle)
            && self.inlet != Some(0)
            && self.into.iter().all(|edge| held[*edge] > 0)
    }

    /// Takes what a firing takes, and answers its need.
    fn start(&mut self, held: &mut [u64]) -> u64 {
        self.into.iter().for_each(|edge| held[*edge] -= 1);
        self.inlet = self.inlet.map(|waiting| waiting - 1);
        self.need
    }

    /// A granted tick; whether a firing ends by it.
    fn serve(&mut self, held: &mut [u64]) -> bool {
        let left = match self.stage {
            Stage::UnderWay { left } => left,
            Stage::Idle if self.ready => self.start(held),
            Stage::Idle => return false,
        };
        if left > 1 {
            self.stage = Stage::UnderWay { left: left - 1 };
            return false;
        }
        self.stage = Stage::Idle;
        self.out.iter().for_each(|edge| held[*edge] += 1);
        true
    }
}

pub struct Runner {
    pub clock: u64,
    tasks: Vec<TaskState>,
    held: Vec<u64>,
}

impl Runner {
    pub fn new(sheet: &Sheet) -> Runner {
        let edges = |is_there: &dyn Fn(usize) -> bool| {
            (0..sheet.edges.len()).filter(|e| is_there(*e)).collect()
        };
        let tasks = sheet.tasks.iter().enumerate().map(|(at, task)| TaskState {
            server: task.server,
            stage: Stage::Idle,
            ready: false,
            inlet: task.inlet.then_some(0),
            need: task.time,
            time: task.time,
            fired: 0,
            into: edges(&|e| sheet.edges[e].to == at),
            out: edges(&|e| sheet.edges[e].from == at),
        });
        Runner {
            clock: 0,
            tasks: tasks.collect(),
            held: sheet.edges.iter().map(|edge| edge.tokens).collect(),
        }
    }

    pub fn arrive(&mut self, task: usize) -> Result<(), Fault> {
        match &mut self.tasks[task].inlet {
            None => Err(Fault::runner(13)),
            Some(MOST_WAITING) => Err(Fault::runner(15)),
            Some(waiting) => {
                *waiting += 1;
                Ok(())
            }
        }
    }

    pub fn need(&mut self, task: usize, ticks: u64) -> Result<(), Fault> {
        let task = &mut self.tasks[task];
        if !(1..=task.time).contains(&ticks) {
            return Err(Fault::runner(14));
        }
        task.need = ticks;
        Ok(())
    }

    /// One tick with a claim for each task; finish records are pushed in task order.
    pub fn tick(&mut self, claims: &[bool], records: &mut Vec<Record>) -> Result<(), Fault> {
        if claims.len() != self.tasks.len() {
            return Err(Fault::runner(13));
        }
        if self.clock == LAST_CLOCK {
            return Err(Fault::runner(16));
        }
        for task in &mut self.tasks {
            task.ready = task.is_ready(&self.held);
        }
        self.clock += 1;
        for (at, (task, claimed)) in self.tasks.iter_mut().zip(claims).enumerate() {
            let granted = task.server.tick(*claimed);
            if granted && task.serve(&mut self.held) {
                records.push(Record {
                    task: at,
                    firing: task.fired,
                    clock: self.clock,
                });
                task.fired += 1;
            }
        }
        Ok(())
    }
}
