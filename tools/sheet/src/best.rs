//! `sheet best`: the plans that cost least by the text's preferences, of all solutions.
//!
//! Where a part of the trials is enough to read all solutions, these are the best of them. Else the sets of the windows are
//! parted by what their duties cost beyond the cheapest. Halls of one duty class for each window are run in the order of
//! their total, first those of the least, then those of ever more totals at once, so that no list is longer than the plans
//! asked for. Halls are left out that cost more by what windows cost which never have the same duty, or that have no plan.

use crate::advice::advice_of;
use crate::answers;
use crate::classes::Classes;
use crate::command::{out, refuse, Arguments, Choice, Command, Out, Outcome, Source, Status, Stop};
use crate::input::{Input, HALL_OPTIONS, WHERE_OPTION};
use crate::json::{list, object, write_rows, Fields, Json, JSON_OPTION};
use crate::listing::{Limits, Plans};
use crate::parts::{Parts, Read};
use crate::plans::{as_csv, write_bom, BOM_OPTION, CSV_OPTION};
use crate::runner::count;
use crate::score::Score;
use crate::table::{free, write_counts, write_csv, write_table, Columns};
use crate::text::{Stated, Statement};
use crate::watch::{Cause, Watch};
use crate::words::{counted, grouped, written};
use planner::{Ending, Refusal};
use std::ops::RangeInclusive;

pub const COMMAND: Command = Command {
    name: "best",
    usage: "[K] TEXT",
    about:
        "shows the K best plans by the text's preferences (without K one), what they cost, and who is free",
    files: 1..=2,
    options: &[
        &[
            CSV_OPTION,
            BOM_OPTION,
            JSON_OPTION,
            Choice {
                name: FIXED,
                value: None,
                about: "writes the text with the best plan's duties fixed, for `sheet page -`",
            },
            Choice {
                name: "--near",
                value: Some("FILE"),
                about: "prefers the duties of a plan, as a `near` line does",
            },
            WHERE_OPTION,
        ],
        HALL_OPTIONS,
    ],
    asks: false,
    run,
};

/// Writes a text of the best plan.
const FIXED: &str = "--fixed";

/// The most plans asked for.
const MOST: usize = 100_000;

/// The room of one run's list.
const ROOM: u32 = 4_096;

/// The most trials to read all solutions, and at most a quarter of those that are left.
const READING: u32 = 250_000;

fn run(arguments: &Arguments) -> Result<Outcome, Stop> {
    let (count, source) = match &arguments.sources[..] {
        [count, source] => (number(&count.0)?, source),
        rest => (1, &rest[0]),
    };
    let forms = [as_csv(arguments), arguments.has(JSON_OPTION.name), arguments.has(FIXED)];
    if forms.iter().filter(|form| **form).count() > 1 {
        return refuse("best takes one of --csv, --json and --fixed");
    }
    let limits = Limits::of(arguments)?;
    let input = Input::read(source)?.lent(arguments)?;
    let files: Vec<Source> = arguments.all("--near").cloned().map(Source).collect();
    let score = Score::new(&input.text, source, &files)?;
    let watch = Watch::of(arguments)?;
    let best = input.accepted(best(&input, &score, count, limits.trials, true, &watch))?;
    let stop = watch.stopped();
    let hint = hint(&input, &best, limits, stop);
    drop(watch);
    let shown = Shown { input: &input, score: &score, best: &best, limits, stop, hint };
    let mut out = out();
    match forms {
        [true, _, _] => {
            out.all(|out| write_bom(out, arguments))?;
            out.all(|out| write_csv(out, &input.made.problem, &shown.plans()))?;
        }
        [_, true, _] => shown.write_json(&mut out, count)?,
        [_, _, true] => out.all(|out| write!(out, "{}", shown.fixed()))?,
        _ => shown.write(&mut out)?,
    }
    out.end()?;
    let note = if forms[0] || forms[2] { shown.ending() } else { String::new() };
    Ok(Outcome { output: Vec::new(), note: shown.notes() + &note, status: best.status() })
}

fn number(word: &str) -> Result<usize, Stop> {
    match word.replace([',', '_'], "").parse::<usize>() {
        Ok(count) if (1..=MOST).contains(&count) => Ok(count),
        _ => refuse(format!("best takes a number of plans from 1 to {MOST}, not `{word}`")),
    }
}

/// The best plans, cheapest first, those that cost the same in reading order.
#[derive(Debug)]
pub struct Best {
    pub plans: Vec<Vec<u8>>,
    pub ending: Read,
    /// Are these all plans there are?
    pub all: bool,
    /// Each that costs less is among them.
    pub cost: u64,
    pub trials: u32,
    /// How many exchanges keep every preference, and how many don't; alike windows count for one, or for one of each.
    pub exchanges: [usize; 2],
}

impl Best {
    fn status(&self) -> Status {
        match self.ending {
            Read::Spent => Status::Short,
            Read::Done if self.plans.is_empty() => Status::NoPlan,
            Read::Done => Status::Finished,
        }
    }
}

/// The best plans of a hall, but those that exchanges which keep every preference make of earlier ones. If it `reads`, it
/// looks first whether all solutions can be read.
pub fn best(
    input: &Input,
    score: &Score,
    count: usize,
    trials: u32,
    reads: bool,
    watch: &Watch,
) -> Result<Best, Refusal> {
    let made = &input.made;
    let same = Same::new(input, score);
    let mut parts = Parts::new(&made.problem, &made.pairs, trials, watch);
    let mut best = Best {
        plans: Vec::new(),
        ending: Read::Done,
        all: false,
        cost: 0,
        trials: 0,
        exchanges: same.exchanges,
    };
    let none = has_none(input, &mut parts, watch)?;
    let read = if reads && !none { of_all(input, score, &same, count, &mut parts)? } else { None };
    match read {
        _ if none => best.all = true,
        Some(plans) => (best.all, best.plans) = (plans.len() < count, plans),
        None => by_totals(&mut best, &mut parts, &Classes::new(&made.problem, score), &same, count)?,
    }
    best.trials = trials - parts.trials;
    Ok(best)
}

/// Adds plans from the least total on.
fn by_totals(
    best: &mut Best,
    parts: &mut Parts,
    classes: &Classes,
    same: &Same,
    count: usize,
) -> Result<(), Refusal> {
    let (mut next, mut more) = (Some(0), 0);
    if classes.least_of(&classes.sets()).is_none() {
        // that there is no plan the planner has to say
        best.ending = parts.each(classes.sets(), [parts.trials, ROOM], |_| true)?;
        next = None;
    }
    while let Some(extra) = next.filter(|_| best.plans.len() < count && best.ending == Read::Done) {
        best.cost = classes.least + extra;
        let wanted = count - best.plans.len();
        next = cheapest(best, parts, classes, same, wanted, extra..=extra + more)?;
        more = 2 * more + 1;
    }
    best.all = next.is_none() && best.ending == Read::Done && best.plans.len() < count;
    Ok(())
}

/// Has the hall no plan, as the planner finds under all its exchanges with a part of the trials?
fn has_none(input: &Input, parts: &mut Parts, watch: &Watch) -> Result<bool, Refusal> {
    let sum = count(&input.made, 1, (parts.trials / 4).into(), watch)?;
    parts.trials -= sum.trials as u32;
    Ok(sum.ending == Some(Ending::Finished) && sum.plans == 0)
}

/// The best of all solutions, where a part of the trials is enough to read them all.
fn of_all(
    input: &Input,
    score: &Score,
    same: &Same,
    count: usize,
    parts: &mut Parts,
) -> Result<Option<Vec<Vec<u8>>>, Refusal> {
    let trials = READING.min(parts.trials / 4);
    let order = parts.order.clone();
    let mut found = Vec::new();
    let read = parts.each(input.made.problem.initial.clone(), [trials, ROOM], |plan| {
        if same.is_first(plan, &order) {
            found.push((score.of_plan(plan), plan.to_vec()));
        }
        if found.len() >= 2 * count + ROOM as usize {
            keep_best(&mut found, count, &order);
        }
        true
    })?;
    keep_best(&mut found, count, &order);
    Ok((read == Read::Done).then(|| found.into_iter().map(|(_, plan)| plan).collect()))
}

/// Keeps so many plans, the cheapest first, then as read.
fn keep_best(found: &mut Vec<(u64, Vec<u8>)>, count: usize, order: &[usize]) {
    let reading = |plan: &[u8]| order.iter().map(|&window| plan[window]).collect::<Vec<u8>>();
    found.sort_by_cached_key(|(cost, plan)| (*cost, reading(plan)));
    found.truncate(count);
}

/// Adds the plans of some totals, as many as are wanted still; the answer is the next total.
fn cheapest(
    best: &mut Best,
    parts: &mut Parts,
    classes: &Classes,
    same: &Same,
    wanted: usize,
    totals: RangeInclusive<u64>,
) -> Result<Option<u64>, Refusal> {
    let mut search = Search { classes, same, parts, totals, wanted, found: Vec::new(), next: None };
    best.ending = search.choose(&classes.sets(), 0)?;
    best.plans.extend(search.found.into_iter().map(|(_, plan)| plan));
    Ok(search.next)
}

/// The plans of some totals: a class is chosen for each window in turn, as long as a plan that is wanted may be left.
struct Search<'a, 'b> {
    classes: &'a Classes,
    same: &'a Same,
    parts: &'a mut Parts<'b>,
    totals: RangeInclusive<u64>,
    wanted: usize,
    /// The best so far with their totals, as many as are wanted, the cheapest first, then as read.
    found: Vec<(u64, Vec<u8>)>,
    /// No plan costs more than these totals and less than that one.
    next: Option<u64>,
}

impl Search<'_, '_> {
    /// Chooses classes from one window on.
    fn choose(&mut self, sets: &[u16], window: usize) -> Result<Read, Refusal> {
        let Some(least) = self.classes.least_of(sets) else { return Ok(Read::Done) };
        if least > *self.totals.end() {
            self.next = Some(self.next.map_or(least, |next| next.min(least)));
            return Ok(Read::Done);
        }
        if self.classes.most_of(sets) < *self.totals.start() || self.are_better(least, sets) {
            return Ok(Read::Done);
        }
        if window == sets.len() {
            return self.read(least, sets);
        }
        if !self.may_have_plan(sets, window)? {
            return Ok(Read::Done);
        }
        for &(_, class) in &self.classes.by_window[window] {
            let part = [&sets[..window], &[class], &sets[window + 1..]].concat();
            if self.choose(&part, window + 1)? == Read::Spent {
                return Ok(Read::Spent);
            }
        }
        Ok(Read::Done)
    }

    /// Are as many plans as are wanted found that cost less than all from some sets, or as much and read earlier?
    fn are_better(&self, least: u64, sets: &[u16]) -> bool {
        let order = &self.parts.order;
        let first = order.iter().map(|&window| sets[window].trailing_zeros() as u8);
        let last = self.found.last().filter(|_| self.found.len() == self.wanted);
        last.is_some_and(|(cost, plan)| {
            least > *cost || least == *cost && first.gt(order.iter().map(|&window| plan[window]))
        })
    }

    /// May there be a plan after the class chosen last? The question is put where it made the window's set smaller and
    /// several classes are left at the others.
    fn may_have_plan(&mut self, sets: &[u16], window: usize) -> Result<bool, Refusal> {
        let is_new = window > 0 && sets[window - 1] != self.classes.sets()[window - 1];
        match is_new && self.classes.by_window[window..].iter().any(|classes| classes.len() > 1) {
            true => self.parts.may_have_plan(sets),
            false => Ok(true),
        }
    }

    /// Adds the plans of a hall of one class for each window, which all cost the same.
    fn read(&mut self, cost: u64, sets: &[u16]) -> Result<Read, Refusal> {
        let order = self.parts.order.clone();
        let mut new = Vec::new();
        let room = if self.same.is_empty() { ROOM.min(self.wanted as u32) } else { ROOM };
        let read = self.parts.each(sets.to_vec(), [self.parts.trials, room], |plan| {
            if self.same.is_first(plan, &order) {
                new.push((cost, plan.to_vec()));
            }
            new.len() < self.wanted
        })?;
        self.found.append(&mut new);
        keep_best(&mut self.found, self.wanted, &order);
        Ok(read)
    }
}

/// Exchanges that keep every preference: by them plans of one cost are made of one another.
struct Same {
    /// For each, the pair that is taken to a pair.
    from: Vec<Vec<usize>>,
    /// Windows that are alike and cost the same.
    alike: Vec<Vec<usize>>,
    values: usize,
    exchanges: [usize; 2],
}

impl Same {
    fn new(input: &Input, score: &Score) -> Same {
        let problem = &input.made.problem;
        let kept: Vec<&Vec<usize>> =
            problem.symmetries.iter().filter(|images| score.is_kept_by(problem, images)).collect();
        let alike = alike(input, score);
        let [one, several] = [alike.iter().any(|group| group.len() > 1), alike.len() > 1];
        let exchanges =
            [kept.len() + usize::from(one), problem.symmetries.len() - kept.len() + usize::from(several)];
        let from = kept.into_iter().map(|images| inverse(images)).collect();
        Same { from, alike, values: problem.values.len(), exchanges }
    }

    fn is_empty(&self) -> bool {
        self.from.is_empty() && self.alike.is_empty()
    }

    /// Is there no earlier plan, read in an order, of which an exchange makes this one?
    fn is_first(&self, plan: &[u8], order: &[usize]) -> bool {
        let reading = |plan: &[u8]| order.iter().map(|&window| plan[window]).collect::<Vec<u8>>();
        let source = |from: &Vec<usize>| {
            let mut source = plan.to_vec();
            for (window, &value) in plan.iter().enumerate() {
                let pair = from[window * self.values + usize::from(value)];
                source[pair / self.values] = (pair % self.values) as u8;
            }
            source
        };
        let in_order = |group: &Vec<usize>| {
            order.iter().filter(|window| group.contains(window)).map(|&window| plan[window]).is_sorted()
        };
        self.alike.iter().all(in_order)
            && self.from.iter().all(|from| reading(&source(from)) >= reading(plan))
    }
}

/// The alike windows in groups of which every duty costs the same.
fn alike(input: &Input, score: &Score) -> Vec<Vec<usize>> {
    let [first, count] = input.made.block[..] else { return Vec::new() };
    let values = input.made.problem.values.len();
    let costs = |window: usize| (0..values).map(|value| score.of(window, value)).collect::<Vec<u64>>();
    let mut groups: Vec<Vec<usize>> = Vec::new();
    for window in usize::from(first)..usize::from(first) + usize::from(count) {
        match groups.iter_mut().find(|group| costs(group[0]) == costs(window)) {
            Some(group) => group.push(window),
            None => groups.push(vec![window]),
        }
    }
    groups
}

fn inverse(images: &[usize]) -> Vec<usize> {
    let mut from = vec![0; images.len()];
    images.iter().enumerate().for_each(|(pair, &image)| from[image] = pair);
    from
}

/// What helps where the trials are used up.
fn hint(input: &Input, best: &Best, limits: Limits, stop: Option<Cause>) -> String {
    match (best.ending, stop) {
        (Read::Spent, None) => format!(" (--trials N allows more){}", advice_of(&input.made, limits)),
        _ => String::new(),
    }
}

/// The best plans as they are shown.
struct Shown<'a> {
    input: &'a Input,
    score: &'a Score,
    best: &'a Best,
    limits: Limits,
    /// Why the runs stopped before their limits, if they did.
    stop: Option<Cause>,
    hint: String,
}

impl Shown<'_> {
    /// The plans that `--where` chooses.
    fn plans(&self) -> Plans {
        let wanted = self.best.plans.iter().filter(|plan| self.input.is_wanted(plan));
        let bytes: Vec<u8> = wanted.flatten().copied().collect();
        Plans::new(self.input.made.problem.variables.len(), bytes, self.best.plans.len())
    }

    /// The text with a `fix` line for each window of the best plan that has none yet.
    fn fixed(&self) -> String {
        let mut text = self.input.source.trim_end().to_string() + "\n";
        let is_fixed = |window: usize| {
            let fixes =
                |stated: &Stated| matches!(stated.statement, Statement::Fix(other, _) if other == window);
            self.input.text.statements.iter().any(fixes)
        };
        for (window, &value) in self.best.plans.iter().take(1).flatten().enumerate() {
            let (windows, values) = (&self.input.text.variables, &self.input.text.values);
            if !is_fixed(window) {
                text +=
                    &format!("fix {} {}\n", written(&windows[window]), written(&values[usize::from(value)]));
            }
        }
        text
    }

    /// The table, what each plan costs, how often each duty stands, and the ending.
    fn write(&self, out: &mut Out) -> Result<(), Stop> {
        let (plans, problem, present) = (self.plans(), &self.input.made.problem, self.input.present());
        let costs: Vec<u64> = plans.iter().map(|plan| self.score.of_plan(plan)).collect();
        out.all(|out| {
            write_table(out, problem, &plans, Columns { costs: Some(&costs), free: Some(present) })
        })?;
        for (number, plan) in plans.iter().enumerate() {
            let gap = if number == 0 { "\n" } else { "" };
            let broken = match self.score.broken(plan) {
                broken if broken.is_empty() => "nothing".to_string(),
                broken => format!("{}: {}", costs[number], broken.join(", ")),
            };
            out.all(|out| writeln!(out, "{gap}plan {} costs {broken}", number + 1))?;
        }
        if plans.len() > 1 {
            out.all(|out| write_counts(out, problem, &plans, present))?;
        }
        out.all(|out| write!(out, "{}", self.ending()))
    }

    /// What is said beside the answer.
    fn notes(&self) -> String {
        self.input.notes() + &self.score.notes
    }

    /// The answer for machines to so many plans asked for.
    fn write_json(&self, out: &mut Out, asked: usize) -> Result<(), Stop> {
        let plans = self.plans();
        let rows = plans.iter().map(|plan| self.row(plan));
        out.all(|out| write_rows(out, &self.json(asked), "best", rows))
    }

    /// The same but for the plans.
    fn json(&self, asked: usize) -> Fields {
        let best = self.best;
        let word = match (best.ending, self.stop) {
            (Read::Done, _) => "finished",
            (Read::Spent, Some(_)) => "stopped",
            (Read::Spent, None) => "spent",
        };
        let ending = answers::ending(word, best.status(), &self.words());
        let mut fields = answers::of_hall(COMMAND.name, self.input, &self.notes(), ending);
        fields.extend([
            ("asked", asked.into()),
            ("listed", self.plans().len().into()),
            ("found", best.plans.len().into()),
            ("all", best.all.into()),
            ("trials", best.trials.into()),
            ("allowance", self.limits.trials.into()),
            ("used_exchanges", best.exchanges[0].into()),
            ("unused_exchanges", best.exchanges[1].into()),
        ]);
        fields
    }

    /// A plan for machines: what it costs and why, its duties, and who is free.
    fn row(&self, plan: &[u8]) -> Json {
        let problem = &self.input.made.problem;
        object(vec![
            ("cost", self.score.of_plan(plan).into()),
            ("plan", answers::plan(problem, plan)),
            ("free", answers::duties(problem, free(plan, self.input.present()))),
            ("broken", list(self.score.broken(plan))),
        ])
    }

    /// How it ended, and which exchanges were used.
    fn ending(&self) -> String {
        format!("{}\n{}", self.words(), self.exchanges())
    }

    /// How it ended.
    fn words(&self) -> String {
        let count = self.best.plans.len();
        let plans = if count == 0 { "no plan".to_string() } else { counted(count as u64, "plan") };
        let trials = counted(self.best.trials, "trial");
        let words = match self.best.ending {
            Read::Spent => self.spent(&plans, &trials),
            Read::Done if self.best.all && count > 0 => {
                format!("finished: {plans} in all, best first, {trials}")
            }
            Read::Done if self.best.all => format!("finished: {plans}, {trials}"),
            Read::Done if count == 1 => format!("finished: the best plan of all, {trials}"),
            Read::Done => format!("finished: the {} best plans of all, {trials}", grouped(count as u64)),
        };
        let shown = match self.input.chooses() {
            true => format!("; {}", self.input.shown(self.plans().len())),
            false => String::new(),
        };
        words + &shown + &self.hint
    }

    /// How it stopped short, with so many plans and trials.
    fn spent(&self, plans: &str, trials: &str) -> String {
        let at = match self.stop {
            Some(cause) => format!("{} and {trials}", cause.words()),
            None => format!("stopped at the allowance of {}", counted(self.limits.trials, "trial")),
        };
        let cheapest = if self.are_cheapest() { "none costs less, but " } else { "" };
        format!("{at}, {plans} so far: {cheapest}plans that cost {} or more may be missing", self.best.cost)
    }

    /// Are there plans, and is none missing that costs less than one of these?
    fn are_cheapest(&self) -> bool {
        let dearest = self.best.plans.last().map(|plan| self.score.of_plan(plan));
        dearest.is_some_and(|cost| cost <= self.best.cost)
    }

    /// What is to be said of exchanges.
    fn exchanges(&self) -> String {
        let [kept, told_apart] = self.best.exchanges.map(|count| counted(count as u64, "exchange"));
        let mut words = String::new();
        if self.best.exchanges[1] > 0 {
            words +=
                &format!("({told_apart} not used: a preference tells apart what they make of one another)\n");
        }
        if self.best.exchanges[0] > 0 {
            words += &format!(
                "({kept} used, under which every plan costs the same: what they make of an earlier plan is left out)\n"
            );
        }
        words
    }
}
