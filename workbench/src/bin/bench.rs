//! Prints how the implementations compare on the same files, as ratios measured in one run.
//!
//! Times differ from machine to machine, so no test should look at them: only ratios are printed.
//! A busy machine spoils ratios too: run it twice and trust only what stays.
//! `bench [rounds]`: more rounds, steadier ratios (20 by default); texts in times of the plain reader.
//! `bench --before [rounds]`: the same rows, of the library in times of an older one that `./bench --before` links,
//! each summed over the copies of it, without the questions that the older one answers otherwise.

use std::hint::black_box;
use std::process::ExitCode;
use std::time::{Duration, Instant};
use workbench::checker::{is_defined, judge_pack, pairs, PACK_LIMIT, RULE_LIMIT};
use workbench::encode::{certificate_bytes, pack_bytes};
use workbench::examples::{checks, default_folder};
use workbench::generate::lexicographic::of_levels;
use workbench::generate::packs::{dense, guided, seeded, Base, Size};
use workbench::generate::weightings::split;
use workbench::implementation::{all, library_and_before, Copies, Implementation};
use workbench::random::Random;
use workbench::report::{number, run, say, Arguments, Failure};
use workbench::slow_texts::Side;
use workbench::solver_text::TEXT_LIMIT;
use workbench::{slow, slow_texts, tuned};

const USAGE: &str =
    "bench [--before] [rounds], 1 to 10000, 20 by default; ./bench --before FILE.a [rounds] links FILE.a";
const BEFORE: &str = "--before";
/// A ratio to the one before that is over this is pointed out.
const SLOWER: f64 = 1.03;
const ROUNDS: u64 = 20;
const MOST_ROUNDS: u64 = 10_000;

/// Files that are checked one after the other, and a question for each pack.
struct Workload {
    name: String,
    files: Vec<File>,
}

struct File {
    pack: Vec<u8>,
    certificate: Vec<u8>,
    question: [u32; 4],
}

/// What is measured: questions, and how they are put to one implementation, which tells each answer.
struct Job<'a, T> {
    questions: Vec<&'a T>,
    ask: fn(&dyn Implementation, &[&T], Tell),
}

type Tell<'a> = &'a mut dyn FnMut(Answer);
/// The number, and the count, the length or the yes that comes with it.
type Answer = (u32, u32);

struct Bench {
    implementations: Vec<Copies>,
    rounds: u64,
    /// They are the library and the one before, and only the ratio is shown.
    before: bool,
}

fn main() -> ExitCode {
    run(USAGE, &[BEFORE], bench)
}

fn bench(arguments: Arguments) -> Result<(), Failure> {
    let rounds = match &arguments.words[..] {
        [] => ROUNDS,
        [rounds] => number(rounds, 1, MOST_ROUNDS)?,
        words => return Err(Failure::Usage(format!("{} words; at most one is wanted", words.len()))),
    };
    let before = arguments.has(BEFORE);
    let bench = Bench { implementations: implementations(before)?, rounds, before };
    let what = if before { "the library in times of the one before" } else { "each in times of the tuned one" };
    say(format_args!("time of {what}; at the end the greatest number each answered\n"));
    bench.header("check");
    let (workloads, examples) = (workloads(), [examples()?]);
    for workload in workloads.iter().chain(&examples) {
        bench.ratios(&workload.name, job(&workload.files, check_all));
    }
    bench.weightings();
    bench.header("\nlist");
    for workload in workloads.iter().take(4).chain(&examples) {
        bench.ratios(&workload.name, job(&workload.files, list_all));
    }
    bench.header("\narc question");
    let meetings = [
        workload("28 meetings of one variable", [slow::agreeing(RULE_LIMIT)]),
        workload("the same, a single rule", [slow::agreeing(1)]),
    ];
    for workload in workloads.iter().take(7).chain(&meetings).chain(&examples) {
        bench.ratios(&workload.name, job(&workload.files, ask_all));
    }
    let readers = Bench { implementations: readers(before)?, rounds, before };
    // An older library that reads no texts is no measure, nor is the plain reader for itself.
    if readers.implementations.len() > 1 {
        readers.texts();
    }
    let own = if before { "" } else { ": time of each in times of its own time one line above" };
    say(format_args!("\ngrowth of check{own}\n"));
    bench.growth("pairs in one component", &[127, 255, 511, 1_023, 2_047], pairs_base);
    bench.growth("pairs without weights", &[64, 128, 256, 512], |pairs| slow::few_arcs(pairs / 64));
    bench.growth("components, weights differ", &[27, 54, 109, 218, 437], |count| slow::chains(count, true));
    bench.growth("components, weights equal", &[27, 54, 109, 218, 437], |count| slow::chains(count, false));
    Ok(())
}

/// The library and the one before, or all that are compiled in.
fn implementations(before: bool) -> Result<Vec<Copies>, Failure> {
    if before {
        let none = "no older library is linked; ./bench --before FILE.a links one";
        return library_and_before().ok_or_else(|| Failure::CouldNotRun(none.to_string()));
    }
    Ok(all().into_iter().map(|one| vec![one]).collect())
}

/// Those of them that read texts.
fn readers(before: bool) -> Result<Vec<Copies>, Failure> {
    let reads = |copies: &Copies| copies[0].read_text(&[], &mut []).is_some();
    Ok(implementations(before)?.into_iter().filter(reads).collect())
}

// ---------------------------------------------------------------- files

fn workload(name: &str, bases: impl IntoIterator<Item = Base>) -> Workload {
    Workload { name: name.to_string(), files: bases.into_iter().map(file).collect() }
}

/// The packs and certificates of the shipped examples.
fn examples() -> Result<Workload, Failure> {
    let files = checks(&default_folder())?.into_iter().map(|check| asked(check.pack, check.certificate)).collect();
    Ok(Workload { name: "the examples".to_string(), files })
}

fn file(base: Base) -> File {
    asked(pack_bytes(&base.pack), certificate_bytes(&base.components))
}

/// The question is about the first and the last pair.
fn asked(pack: Vec<u8>, certificate: Vec<u8>) -> File {
    let all = judge_pack(&pack).map(|pack| pairs(&pack)).unwrap_or_default();
    let ends = (all.first().copied().unwrap_or_default(), all.last().copied().unwrap_or_default());
    let question = [ends.0 .0, ends.0 .1, ends.1 .0, ends.1 .1].map(u32::from);
    File { pack, certificate, question }
}

fn workloads() -> Vec<Workload> {
    vec![
        workload("typical packs, 5 to 20 rules", seeded(200, |random| guided(random, Size::Typical))),
        workload("large packs, 20 to 64 rules", seeded(40, |random| guided(random, Size::Large))),
        workload("packs at the limits", seeded(20, |random| guided(random, Size::Limit))),
        workload("2,047 pairs", seeded(5, |random| dense(random, 1))),
        workload("arcs: walks of 2 nodes", [slow::arcs(2)]),
        workload("arcs: walks of 6 nodes", [slow::arcs(6)]),
        workload("arcs: walks of 30 nodes", [slow::arcs(30)]),
        workload("arcs: the last of 301 comparisons", [slow::clashing()]),
        workload("weights: chains, all differ", [slow::chains(437, true)]),
        workload("weights: chains, all equal", [slow::chains(437, false)]),
        workload("weights: 16 variables", [slow::wide(384)]),
        workload("weights: at the brink", [slow::brink(335)]),
        workload("two weightings", seeded(100, |random| lexicographic(random, 2))),
        workload("eight weightings", seeded(100, |random| lexicographic(random, 8))),
        workload("large packs, 2 or 3 weightings", seeded(20, parted)),
    ]
}

/// Pairs that leave one after the other, in exactly so many weightings and accepted.
fn lexicographic(random: &mut Random, levels: usize) -> Base {
    loop {
        let base = of_levels(random, levels);
        let suits = |base: &Base| base.components.iter().any(|component| component.weightings.len() == levels);
        if suits(&base) && tuned::check(&pack_bytes(&base.pack), &certificate_bytes(&base.components)) == 0 {
            return base;
        }
    }
}

/// A large pack some of whose components have two or three weightings.
fn parted(random: &mut Random) -> Base {
    loop {
        let mut base = guided(random, Size::Large);
        let most = random.range(2, 3);
        split(random, &mut base, most);
        if base.components.iter().any(|component| component.weightings.len() > 1) {
            return base;
        }
    }
}

/// About so many pairs in one component, with as many rules as needed.
fn pairs_base(count: usize) -> Base {
    let mut base = dense(&mut Random::new(5), 1);
    base.pack.rules.truncate(count.div_ceil(32));
    let mut component = base.components.iter().find(|component| component.is_weighted()).cloned().unwrap_or_default();
    component.weightings[0].marked.retain(|(symbol, _), _| is_defined(&base.pack, *symbol));
    component.pairs = pairs(&base.pack);
    base.components = vec![component];
    base
}

/// Solvers' texts that are read one after the other.
struct Texts {
    name: String,
    texts: Vec<Vec<u8>>,
}

fn text(name: &str, text: Vec<u8>) -> Texts {
    Texts { name: name.to_string(), texts: vec![text] }
}

/// As people and solvers write them; the second is the measure of the worst.
fn ordinary_texts() -> [Texts; 3] {
    [
        Texts { name: "a small text".to_string(), texts: vec![slow_texts::SMALL.into(); 50] },
        text("an ordinary text of 32 KB", slow_texts::ordinary(4)),
        text("the same, 300 names in VAR", slow_texts::ordinary(300)),
    ]
}

/// The slowest texts known, all of the greatest length.
fn worst_texts() -> Vec<Texts> {
    let names = slow_texts::many_names().into_iter().map(|(name, bytes)| text(&format!("names: {name}"), bytes));
    let overfull = [text("names: more than the table holds", slow_texts::overfull())];
    let nested = [
        text("nested, closed", slow_texts::closed(Side::Left, "a(", TEXT_LIMIT)),
        text("nested, unclosed", slow_texts::unclosed(Side::Left, "a(", TEXT_LIMIT)),
    ];
    names.chain(overfull).chain(nested).collect()
}

// ---------------------------------------------------------------- jobs

/// All of these questions.
fn job<T>(questions: &[T], ask: fn(&dyn Implementation, &[&T], Tell)) -> Job<'_, T> {
    Job { questions: questions.iter().collect(), ask }
}

fn check_all(one: &dyn Implementation, files: &[&File], tell: Tell) {
    for file in files {
        tell((one.check(black_box(&file.pack), black_box(&file.certificate)), 0));
    }
}

fn list_all(one: &dyn Implementation, files: &[&File], tell: Tell) {
    let mut list = [0; 2_048 * 8];
    for file in files {
        tell(one.list(black_box(&file.pack), &mut list));
    }
}

fn ask_all(one: &dyn Implementation, files: &[&File], tell: Tell) {
    for file in files {
        tell(one.arc(black_box(&file.pack), black_box(file.question)));
    }
}

fn read_all(one: &dyn Implementation, texts: &[&Vec<u8>], tell: Tell) {
    let mut pack = [0; PACK_LIMIT];
    for text in texts {
        tell(one.read_text(black_box(text), &mut pack).unwrap_or_default());
    }
}

// ---------------------------------------------------------------- measuring

impl Bench {
    fn header(&self, what: &str) {
        let names = self.implementations.iter().map(|copies| copies[0].name()).take(self.shown());
        let names: Vec<String> = names.map(|name| format!("{name:>9}")).collect();
        let (space, what) = what.split_at(what.len() - what.trim_start().len());
        say(format_args!("{space}{what:<34}{}  answers", names.concat()));
    }

    /// The one before is only the unit.
    fn shown(&self) -> usize {
        self.implementations.len() - usize::from(self.before)
    }

    /// One line: all in times of the tuned one, or of the first where that is missing, or the library in times of the
    /// one before; no line where no question is left. Answers the times.
    fn ratios<T>(&self, name: &str, mut job: Job<T>) -> Vec<Duration> {
        if self.before {
            self.leave_out(name, &mut job);
        }
        if job.questions.is_empty() {
            return Vec::new();
        }
        let times = self.measure(&job);
        let unit = if self.before { "before" } else { "tuned" };
        let unit = times[self.implementations.iter().position(|copies| copies[0].name() == unit).unwrap_or(0)];
        self.line(name, times.iter().take(self.shown()).map(|time| Some(time.div_duration_f64(unit))), &job);
        times
    }

    /// Without the questions that the one before answers otherwise, as it is no measure there; one line says how many.
    fn leave_out<T>(&self, name: &str, job: &mut Job<T>) {
        let answers: Vec<_> = self.implementations.iter().flatten().map(|one| answers_of(one.as_ref(), job)).collect();
        let same = |at: usize| answers.iter().all(|all| all[at] == answers[0][at]);
        let (all, mut at) = (job.questions.len(), 0..);
        job.questions.retain(|_| at.next().is_some_and(same));
        let out = all - job.questions.len();
        if out > 0 {
            say(format_args!("{name}: left out {out} of {all} questions, which the one before answers otherwise"));
        }
    }

    /// Eight weightings in times of one, for the same pack, by the library.
    fn weightings(&self) {
        let library = self.implementations.iter().position(|copies| copies[0].name() == "library");
        let (false, Some(library)) = (self.before, library) else {
            return;
        };
        let time = |count: usize| {
            let workload = workload("weightings", [slow::weightings(count)]);
            self.measure(&job(&workload.files, check_all))[library]
        };
        let ratio = time(8).div_duration_f64(time(1));
        say(format_args!("\nlibrary: eight weightings in times of one, for the same pack: {ratio:.2}"));
    }

    /// One line a text, in times of the plain reader; and the worst text in times of an ordinary one, by the library.
    fn texts(&self) {
        self.header("\nread text");
        let row = |texts: &Texts| self.ratios(&texts.name, job(&texts.texts, read_all));
        let ordinary = ordinary_texts().each_ref().map(row);
        let worst: Vec<Vec<Duration>> = worst_texts().iter().map(row).collect();
        if let (false, Some(unit)) = (self.before, ordinary[1].last()) {
            let longest = worst.iter().filter_map(|times| times.last()).max().unwrap_or(unit);
            let ratio = longest.div_duration_f64(*unit);
            say(format_args!("\nlibrary: the worst text in times of the ordinary one of 32 KB: {ratio:.2}"));
        }
    }

    /// One line a size, each in times of the line above, or the library in times of the one before.
    fn growth(&self, name: &str, sizes: &[usize], make: impl Fn(usize) -> Base) {
        self.header(name);
        let mut above: Vec<Option<Duration>> = vec![None; self.implementations.len()];
        for size in sizes {
            let workload = workload(name, [make(*size)]);
            let job = job(&workload.files, check_all);
            if self.before {
                self.ratios(&size.to_string(), job);
                continue;
            }
            let times = self.measure(&job);
            let factors = times.iter().zip(&above).map(|(time, above)| above.map(|above| time.div_duration_f64(above)));
            self.line(&size.to_string(), factors, &job);
            above = times.into_iter().map(Some).collect();
        }
        say("");
    }

    fn line<T>(&self, name: &str, numbers: impl Iterator<Item = Option<f64>>, job: &Job<T>) {
        let numbers: Vec<Option<f64>> = numbers.collect();
        let slower = self.before && numbers.iter().flatten().any(|n| *n > SLOWER);
        let mark = if slower { format!("  over {SLOWER}") } else { String::new() };
        // A hundredth more or less is what the one before is asked for.
        let places = if self.before { 3 } else { 2 };
        let numbers = numbers.iter().map(|n| n.map_or(format!("{:>9}", "-"), |n| format!("{n:>9.places$}")));
        let all =
            |copies: &Copies| copies.iter().flat_map(|one| answers_of(one.as_ref(), job)).collect::<Vec<Answer>>();
        let greatest =
            |copies: &Copies| all(copies).into_iter().map(|answer| answer.0).max().unwrap_or_default().to_string();
        let answers: Vec<String> = self.implementations.iter().map(greatest).collect();
        say(format_args!("{name:<34}{}  {}{mark}", numbers.collect::<String>(), answers.join(" ")));
    }

    /// The shortest of some rounds, taken in turns so that all meet the same weather; summed over the copies.
    fn measure<T>(&self, job: &Job<T>) -> Vec<Duration> {
        let longest = |copies: &Copies| vec![Duration::MAX; copies.len()];
        let mut best: Vec<_> = self.implementations.iter().map(longest).collect();
        for _ in 0..self.rounds {
            for (one, best) in self.implementations.iter().flatten().zip(best.iter_mut().flatten()) {
                *best = (*best).min(time_of(one.as_ref(), job));
            }
        }
        best.iter().map(|copies| copies.iter().sum()).collect()
    }
}

/// All its answers, in their order.
fn answers_of<T>(one: &dyn Implementation, job: &Job<T>) -> Vec<Answer> {
    let mut answers = Vec::new();
    (job.ask)(one, &job.questions, &mut |answer| answers.push(answer));
    answers
}

/// Repeats until the clock is fine enough; answers the time of one.
fn time_of<T>(one: &dyn Implementation, job: &Job<T>) -> Duration {
    let start = Instant::now();
    let mut times = 0;
    while times == 0 || start.elapsed() < Duration::from_millis(1) {
        (job.ask)(one, &job.questions, &mut |answer| {
            black_box(answer);
        });
        times += 1;
    }
    start.elapsed() / times
}
