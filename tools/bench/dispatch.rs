//! Answers what crates/paced does, by a dispatcher that is written without proofs.
//! Models, workers and groups count from 0 here; in calls and sheets they count from 1.
use std::cmp::Reverse;
use std::collections::BinaryHeap;
use std::collections::binary_heap::PeekMut;
use std::io::{BufRead, stdin};
use std::mem::swap;

/// What is wrong with a call, with its number.
#[derive(Clone, Copy, Debug)]
enum Fault {
    Spacing = 8,
    Group = 9,
    Model = 11,
    Moment = 12,
    Withdrawn = 13,
}

/// A fault, and the model or the group that a call named.
#[derive(Debug)]
struct Refusal {
    fault: Fault,
    place: usize,
}

impl Fault {
    fn at(self, place: usize) -> Refusal {
        Refusal { fault: self, place }
    }
}

/// Dates at an even pace.
struct Dates {
    first: u32,
    period: u32,
}

impl Dates {
    /// All dates are below this tick.
    const END: u32 = 1 << 30;

    /// The earliest date at or after a tick.
    fn earliest(&self, from: u32) -> Option<u32> {
        let wait = from
            .saturating_sub(self.first)
            .next_multiple_of(self.period);
        Some(self.first + wait).filter(|&date| date < Self::END)
    }
}

/// How many workers there are, how many to a group, and how many parts to a tick.
struct Sizes {
    workers: usize,
    group_size: usize,
    grain: u64,
}

impl Sizes {
    fn is_heavy(&self, weight: u64) -> bool {
        let k = self.group_size as u64;
        self.group_size < self.workers && weight * (k + 1) > k * self.grain
    }
}

struct Model {
    period: u32,
    /// the parts of each tick that it needs on the average
    weight: u64,
    /// the parts that each run needs
    parts: u64,
}

/// Where a model is put.
enum Seat {
    Whole {
        worker: usize,
    },
    Divided {
        worker: usize,
        first: u64,
        second: u64,
    },
}

/// Where models of these weights are put, if there is room for them, the heavy ones alone on the first workers.
fn seats(sizes: &Sizes, weights: &[u64], alone: usize) -> Option<Vec<Seat>> {
    let mut lone = 0..alone;
    let mut worker = alone;
    let mut load = 0;
    let seat = |&weight: &u64| {
        if sizes.is_heavy(weight) {
            return lone.next().map(|worker| Seat::Whole { worker });
        }
        if load + weight <= sizes.grain {
            load += weight;
            return Some(Seat::Whole { worker });
        }
        let free = sizes.grain - load;
        worker += 1;
        if (worker - alone).is_multiple_of(sizes.group_size) || free == 0 {
            load = weight;
            return Some(Seat::Whole { worker });
        }
        load = weight - free;
        Some(Seat::Divided {
            worker: worker - 1,
            first: free,
            second: load,
        })
    };
    let seats = weights.iter().map(seat).collect();
    let used = if alone == weights.len() {
        alone
    } else {
        worker + 1
    };
    if used <= sizes.workers { seats } else { None }
}

/// A divided model on one of its two workers, and the parts of each tick that it has there.
#[derive(Clone, Copy)]
struct Piece {
    model: usize,
    size: u64,
}

/// What is put on a worker.
#[derive(Clone, Default)]
struct Worker {
    first: Option<Piece>,
    second: Option<Piece>,
    whole: Vec<usize>,
}

impl Worker {
    /// The models that it has whole or with their first piece.
    fn models(&self) -> impl Iterator<Item = usize> {
        let divided = self.first.map(|piece| piece.model);
        self.whole.iter().copied().chain(divided)
    }
}

/// Some neighbouring workers, and the models that run on them.
struct Group {
    /// the number of the first worker
    first: usize,
    workers: Vec<Worker>,
    models: Vec<usize>,
}

/// Which worker runs which model.
struct Plan {
    grain: u64,
    models: Vec<Model>,
    groups: Vec<Group>,
    /// the group of each model
    group_of: Vec<usize>,
}

impl Plan {
    /// The plan of models of these costs and periods, if there is room for them.
    fn place(sizes: &Sizes, figures: &[(u32, u32)]) -> Option<Plan> {
        let grain = sizes.grain;
        let model = |&(cost, period): &(u32, u32)| Model {
            period,
            weight: cost as u64 * (grain / period as u64),
            parts: cost as u64 * grain,
        };
        let models: Vec<Model> = figures.iter().map(model).collect();
        let weights: Vec<u64> = models.iter().map(|model| model.weight).collect();
        let alone = weights
            .iter()
            .filter(|&&weight| sizes.is_heavy(weight))
            .count();
        let workers = workers(sizes, &seats(sizes, &weights, alone)?);
        let groups = groups(&workers, alone, sizes.group_size);
        let mut group_of = vec![0; models.len()];
        for (number, group) in groups.iter().enumerate() {
            for &model in &group.models {
                group_of[model] = number;
            }
        }
        Some(Plan {
            grain,
            models,
            groups,
            group_of,
        })
    }
}

/// What is put on each worker.
fn workers(sizes: &Sizes, seats: &[Seat]) -> Vec<Worker> {
    let mut workers = vec![Worker::default(); sizes.workers];
    for (model, seat) in seats.iter().enumerate() {
        match *seat {
            Seat::Whole { worker } => workers[worker].whole.push(model),
            Seat::Divided {
                worker,
                first,
                second,
            } => {
                workers[worker].first = Some(Piece { model, size: first });
                workers[worker + 1].second = Some(Piece {
                    model,
                    size: second,
                });
            }
        }
    }
    workers
}

/// The workers of the heavy models stand alone, and the others by the group size.
fn groups(workers: &[Worker], alone: usize, group_size: usize) -> Vec<Group> {
    let (lone, others) = workers.split_at(alone);
    let mut first = 1;
    let group = |workers: &[Worker]| {
        let models = workers.iter().flat_map(Worker::models).collect();
        let group = Group {
            first,
            workers: workers.to_vec(),
            models,
        };
        first += workers.len();
        group
    };
    lone.chunks(1)
        .chain(others.chunks(group_size))
        .map(group)
        .collect()
}

/// The rows of a sheet: how many spans each has, and the ends and the models of all spans.
#[derive(Default)]
struct Rows {
    sizes: Vec<u64>,
    ends: Vec<u64>,
    models: Vec<u64>,
    /// the first span of the last row
    start: usize,
    /// the part that it reaches
    at: u64,
}

impl Rows {
    fn clear(&mut self) {
        self.sizes.clear();
        self.ends.clear();
        self.models.clear();
    }

    fn begin_row(&mut self) {
        self.start = self.ends.len();
        self.at = 0;
    }

    fn end_row(&mut self) {
        self.sizes.push((self.ends.len() - self.start) as u64);
    }

    /// The worker is with a model, or idle, up to a part. Neighbouring idle spans are joined.
    fn reach(&mut self, to: u64, model: Option<usize>) {
        if self.at == to {
            return;
        }
        let number = model.map_or(0, |model| model as u64 + 1);
        if self.ends.len() > self.start && self.models.last() == Some(&number) {
            self.ends.pop();
            self.models.pop();
        }
        self.ends.push(to);
        self.models.push(number);
        self.at = to;
    }

    fn write(&self, sheet: &mut Vec<u64>) {
        sheet.clear();
        sheet.reserve(1 + self.sizes.len() + self.ends.len() + self.models.len());
        sheet.push(self.sizes.len() as u64);
        sheet.extend_from_slice(&self.sizes);
        sheet.extend_from_slice(&self.ends);
        sheet.extend_from_slice(&self.models);
    }
}

/// What a model is doing.
#[derive(Clone, Copy)]
enum Phase {
    Waiting,
    /// it has a run since a date, which got so many parts
    Live {
        date: u32,
        served: u64,
    },
    Withdrawn,
}

/// How far a group has come.
struct Progress {
    present: u32,
    mirrored: bool,
    /// of each model its next moment: the deadline of its run, or else its next date
    moments: BinaryHeap<Reverse<(u32, usize)>>,
}

impl Progress {
    fn new(group: &Group, calendar: &[Dates]) -> Progress {
        let mut moments = Vec::with_capacity(group.models.len());
        for &model in &group.models {
            moments.extend(
                calendar[model]
                    .earliest(0)
                    .map(|date| Reverse((date, model))),
            );
        }
        Progress {
            present: 0,
            mirrored: false,
            moments: moments.into(),
        }
    }
}

/// An undivided run that waits for its turn.
struct Run {
    model: usize,
    deadline: u32,
    remaining: u64,
}

/// The start and the end of a sheet's interval, and the number of the group's first worker.
struct Interval {
    start: u32,
    end: u32,
    first: usize,
}

/// How a model stands: the number of its phase, and of its run the date, the parts that it got, and by how many it is ahead of an even pace.
struct Standing {
    phase: u64,
    date: u32,
    served: u64,
    lag: i64,
}

/// Which runs go on, and how far each group has come.
struct Roster<'a> {
    plan: &'a Plan,
    calendar: &'a [Dates],
    phases: Vec<Phase>,
    groups: Vec<Progress>,
    rows: Rows,
    /// the runs of a worker, the first one last
    waiting: Vec<Run>,
}

impl<'a> Roster<'a> {
    /// A roster with every group at tick 0, unless dates of a model may lie nearer than its period.
    fn open(plan: &'a Plan, calendar: &'a [Dates]) -> Result<Roster<'a>, Refusal> {
        let mut paces = plan.models.iter().zip(calendar);
        if let Some(model) = paces.position(|(model, dates)| dates.period < model.period) {
            return Err(Fault::Spacing.at(model + 1));
        }
        let mut roster = Roster {
            plan,
            calendar,
            phases: vec![Phase::Waiting; plan.models.len()],
            groups: plan
                .groups
                .iter()
                .map(|group| Progress::new(group, calendar))
                .collect(),
            rows: Rows::default(),
            waiting: Vec::new(),
        };
        for group in 0..plan.groups.len() {
            roster.settle(group, 0);
        }
        Ok(roster)
    }

    /// Takes a group to its next moment, and writes the sheet of the interval.
    fn advance(&mut self, number: usize, sheet: &mut Vec<u64>) -> Result<Interval, Refusal> {
        let plan = self.plan;
        let index = number.wrapping_sub(1);
        let group = plan.groups.get(index).ok_or(Fault::Group.at(number))?;
        let end = self.next_moment(index).ok_or(Fault::Moment.at(number))?;
        let Progress {
            present: start,
            mirrored,
            ..
        } = self.groups[index];
        self.rows.clear();
        for worker in &group.workers {
            self.make_row(worker, mirrored, (end - start) as u64);
        }
        self.rows.write(sheet);
        self.settle(index, end);
        self.groups[index].present = end;
        self.groups[index].mirrored = !mirrored;
        Ok(Interval {
            start,
            end,
            first: group.first,
        })
    }

    fn withdraw(&mut self, number: usize) -> Result<(), Refusal> {
        let model = self.model(number)?;
        if let Phase::Withdrawn = self.phases[model] {
            return Err(Fault::Withdrawn.at(number));
        }
        self.phases[model] = Phase::Withdrawn;
        Ok(())
    }

    fn standing(&self, number: usize) -> Result<Standing, Refusal> {
        let model = self.model(number)?;
        let idle = |phase| Standing {
            phase,
            date: 0,
            served: 0,
            lag: 0,
        };
        Ok(match self.phases[model] {
            Phase::Waiting => idle(1),
            Phase::Live { date, served } => {
                let present = self.groups[self.plan.group_of[model]].present;
                let even = self.plan.models[model].weight * (present - date) as u64;
                Standing {
                    phase: 2,
                    date,
                    served,
                    lag: served as i64 - even as i64,
                }
            }
            Phase::Withdrawn => idle(3),
        })
    }

    /// The model of a number, if there is one.
    fn model(&self, number: usize) -> Result<usize, Refusal> {
        if (1..=self.phases.len()).contains(&number) {
            Ok(number - 1)
        } else {
            Err(Fault::Model.at(number))
        }
    }

    /// The next moment of a group. Those of withdrawn models are dropped on the way.
    fn next_moment(&mut self, group: usize) -> Option<u32> {
        let moments = &mut self.groups[group].moments;
        while let Some(&Reverse((tick, model))) = moments.peek() {
            if !matches!(self.phases[model], Phase::Withdrawn) {
                return Some(tick);
            }
            moments.pop();
        }
        None
    }

    /// At a tick the runs of a group that end there end, and others begin.
    fn settle(&mut self, group: usize, tick: u32) {
        let moments = &mut self.groups[group].moments;
        while let Some(mut top) = moments.peek_mut()
            && top.0.0 == tick
        {
            let model = top.0.1;
            let next = match (self.phases[model], self.calendar[model].earliest(tick)) {
                (Phase::Withdrawn, _) => None,
                (_, Some(date)) if date == tick => {
                    self.phases[model] = Phase::Live { date, served: 0 };
                    Some(date + self.plan.models[model].period)
                }
                (_, coming) => {
                    self.phases[model] = Phase::Waiting;
                    coming
                }
            };
            match next {
                Some(moment) => top.0.0 = moment,
                None => {
                    PeekMut::pop(top);
                }
            }
        }
    }

    /// Makes the row of a worker in an interval of so many ticks.
    fn make_row(&mut self, worker: &Worker, mirrored: bool, ticks: u64) {
        let (mut head, mut tail) = (worker.first, worker.second);
        if mirrored {
            swap(&mut head, &mut tail);
        }
        let long = self.plan.grain * ticks;
        let closes = long - tail.map_or(0, |piece| piece.size * ticks);
        self.rows.begin_row();
        if let Some(piece) = head {
            self.give(piece.size * ticks, piece.model);
        }
        self.find_waiting(worker);
        while self.rows.at < closes
            && let Some(run) = self.waiting.pop()
        {
            self.give(closes.min(self.rows.at + run.remaining), run.model);
        }
        self.rows.reach(closes, None);
        if let Some(piece) = tail {
            self.give(long, piece.model);
        }
        self.rows.end_row();
    }

    /// Finds the undivided runs of a worker, and puts them in order.
    fn find_waiting(&mut self, worker: &Worker) {
        self.waiting.clear();
        self.waiting
            .extend(worker.whole.iter().filter_map(|&model| {
                let Phase::Live { date, served } = self.phases[model] else {
                    return None;
                };
                let Model { period, parts, .. } = self.plan.models[model];
                Some(Run {
                    model,
                    deadline: date + period,
                    remaining: parts - served,
                })
            }));
        self.waiting
            .sort_unstable_by_key(|run| Reverse((run.deadline, run.model)));
    }

    /// The run of a model has the worker up to a part; where it has none, the worker is idle.
    fn give(&mut self, to: u64, model: usize) {
        if let Phase::Live { served, .. } = &mut self.phases[model] {
            *served += to - self.rows.at;
            self.rows.reach(to, Some(model));
        } else {
            self.rows.reach(to, None);
        }
    }
}

enum Call {
    Advance { group: usize },
    Withdraw { model: usize },
    Standing { model: usize },
}

enum Answer {
    Advanced { interval: Interval, sheet: Vec<u64> },
    Withdrew,
    Stands(Standing),
    Refused(Refusal),
}

impl Call {
    fn ask(&self, roster: &mut Roster<'_>) -> Result<Answer, Refusal> {
        Ok(match *self {
            Call::Advance { group } => {
                let mut sheet = Vec::new();
                let interval = roster.advance(group, &mut sheet)?;
                Answer::Advanced { interval, sheet }
            }
            Call::Withdraw { model } => {
                roster.withdraw(model)?;
                Answer::Withdrew
            }
            Call::Standing { model } => Answer::Stands(roster.standing(model)?),
        })
    }
}

/// Performs all calls on a new roster.
fn perform(plan: &Plan, calendar: &[Dates], calls: &[Call]) -> Result<Vec<Answer>, Refusal> {
    let mut roster = Roster::open(plan, calendar)?;
    let answers = calls
        .iter()
        .map(|call| call.ask(&mut roster).unwrap_or_else(Answer::Refused));
    Ok(answers.collect())
}

/// A number that hangs on all that it is told, and on the order.
#[derive(Default)]
struct Checksum(u64);

impl Checksum {
    fn add<const N: usize>(&mut self, numbers: [u64; N]) {
        for number in numbers {
            self.0 = self
                .0
                .wrapping_mul(0x9e37_79b9_7f4a_7c15)
                .wrapping_add(number);
        }
    }

    /// Each word counts as often as its place says, so that telling a sheet costs little.
    fn add_sheet(&mut self, interval: &Interval, sheet: &[u64]) {
        let words = sheet.iter().zip(1..).fold(0u64, |sum, (word, place)| {
            sum.wrapping_add(word.wrapping_mul(place))
        });
        let Interval { start, end, first } = *interval;
        self.add([
            start as u64,
            end as u64,
            first as u64,
            sheet.len() as u64,
            words,
        ]);
    }

    fn add_answer(&mut self, answer: &Answer) {
        match answer {
            Answer::Advanced { interval, sheet } => self.add_sheet(interval, sheet),
            Answer::Withdrew => self.add([0]),
            Answer::Stands(standing) => {
                let Standing {
                    phase,
                    date,
                    served,
                    lag,
                } = *standing;
                self.add([phase, date as u64, served, lag as u64]);
            }
            Answer::Refused(refusal) => self.add([refusal.fault as u64, refusal.place as u64]),
        }
    }
}

/// What a line names: a plan, and a calendar for it.
struct Job {
    plan: Plan,
    calendar: Vec<Dates>,
}

/// The grain of the plans with many models, and how many they have.
const GRAIN: u32 = 100_800;
const MODELS: usize = 64;

/// A day, in ticks.
const DAY: u32 = 24;

impl Job {
    /// One group of 32 workers, and 64 models of about half a worker each: 31 of them are divided.
    fn wide() -> Option<Job> {
        let sizes = Sizes {
            workers: 32,
            group_size: 32,
            grain: GRAIN as u64,
        };
        Job::with_shares(&sizes, |_| 49)
    }

    /// Eight models that have a worker each, and 56 in five groups of four workers.
    fn grouped() -> Option<Job> {
        let sizes = Sizes {
            workers: 28,
            group_size: 4,
            grain: GRAIN as u64,
        };
        Job::with_shares(&sizes, |model| if model < 8 { 90 } else { 34 })
    }

    /// Many models whose costs are shares of their periods, in hundredths. Their first dates are spread over a day.
    /// The periods are the first divisors of the grain from a day up, dealt so that short ones and long ones meet on a worker.
    fn with_shares(sizes: &Sizes, share: impl Fn(usize) -> u32) -> Option<Job> {
        let divisors: Vec<u32> = (DAY..=GRAIN)
            .filter(|period| GRAIN.is_multiple_of(*period))
            .take(MODELS)
            .collect();
        let periods = (0..MODELS).map(|model| divisors[model * 25 % MODELS]);
        let figures: Vec<(u32, u32)> = periods
            .enumerate()
            .map(|(model, period)| (period * share(model) / 100, period))
            .collect();
        let firsts = (0..).map(|model| model * 5 % DAY);
        let calendar = firsts
            .zip(&figures)
            .map(|(first, &(_, period))| Dates { first, period })
            .collect();
        Some(Job {
            plan: Plan::place(sizes, &figures)?,
            calendar,
        })
    }

    /// Three models on two workers.
    fn small() -> Option<Job> {
        let sizes = Sizes {
            workers: 2,
            group_size: 2,
            grain: 10,
        };
        let calendar = (0..3)
            .map(|_| Dates {
                first: 0,
                period: 10,
            })
            .collect();
        Some(Job {
            plan: Plan::place(&sizes, &[(6, 10); 3])?,
            calendar,
        })
    }

    /// Advances the groups of one roster by turns, so often.
    fn advance(&self, times: usize, sum: &mut Checksum) -> Result<(), Refusal> {
        let mut roster = Roster::open(&self.plan, &self.calendar)?;
        let mut sheet = Vec::new();
        for group in (1..=self.plan.groups.len()).cycle().take(times) {
            let interval = roster.advance(group, &mut sheet)?;
            sum.add_sheet(&interval, &sheet);
        }
        Ok(())
    }

    /// Opens a roster for each four advances.
    fn open(&self, times: usize, sum: &mut Checksum) -> Result<(), Refusal> {
        for _ in 0..times / 4 {
            self.advance(4, sum)?;
        }
        Ok(())
    }

    /// Performs so many calls on a roster.
    fn season(&self, times: usize, sum: &mut Checksum) -> Result<(), Refusal> {
        let calls: Vec<Call> = (0..times).map(|number| self.call(number)).collect();
        let answers = perform(&self.plan, &self.calendar, &calls)?;
        answers.iter().for_each(|answer| sum.add_answer(answer));
        Ok(())
    }

    /// A call of a season: of 512 the last withdraws a model, of 16 the last asks for a standing, and the others advance the groups by turns.
    fn call(&self, number: usize) -> Call {
        if number % 512 == 511 {
            Call::Withdraw {
                model: number / 512 + 1,
            }
        } else if number % 16 == 15 {
            Call::Standing {
                model: number / 16 % self.plan.models.len() + 1,
            }
        } else {
            Call::Advance {
                group: number % self.plan.groups.len() + 1,
            }
        }
    }

    /// What is answered to a line that asks for this plan.
    fn answer(&self, way: &str, times: usize) -> u64 {
        let mut sum = Checksum::default();
        match way {
            "advance" => self.advance(times, &mut sum),
            "open" => self.open(times, &mut sum),
            "season" => self.season(times, &mut sum),
            _ => panic!("no such way: {way}"),
        }
        .expect("nothing is refused");
        sum.0
    }
}

fn main() {
    for line in stdin().lock().lines() {
        let line = line.expect("input is text");
        let [plan, way, times] = line.split(' ').collect::<Vec<_>>()[..] else {
            panic!("no plan, way and number: {line}");
        };
        let job = match plan {
            "wide" => Job::wide(),
            "grouped" => Job::grouped(),
            "small" => Job::small(),
            _ => panic!("no such plan: {plan}"),
        };
        let job = job.expect("the models fit");
        println!(
            "{}",
            job.answer(way, times.parse().expect("a number of calls"))
        );
    }
}
