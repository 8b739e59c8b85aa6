//! Holds two implementations against each other on seeded cases.
//!
//! `compare [count] [seed] [one] [other]`: by default 200,000 cases from seed 1, the checker against
//! the tuned one, or against the library if that is compiled in.

use std::process::ExitCode;
use workbench::checker::{judge_pack, pair_left, pair_right, Pack, BACK_ARC, SELF_ARC, WEIGHTING_LIMIT};
use workbench::generate::texts::TextQuestion;
use workbench::generate::{case, Case};
use workbench::implementation::{by_name, Implementation};
use workbench::reach::{arc_by_reach, check_by_reach, has_repeated_variable};
use workbench::report::{number, run, say, Arguments, Failure};
use workbench::text::{disassemble_certificate, disassemble_pack};

const USAGE: &str = "compare [count] [seed] [one] [other]; \
    implementations: checker, tuned, library (with the feature library)";
const COUNT: u64 = 200_000;
const SEED: u64 = 1;
const OTHER: &str = if cfg!(feature = "library") { "library" } else { "tuned" };

/// What an arc question between two pairs of the pack is answered where no arc runs.
const NO: (u32, u32) = (0, 0);

/// What stands in a lent list or buffer before the call.
const PATTERN: u8 = 0xA7;

/// How often each number came; the last place is for all that should not come.
type Numbers = [u64; 19];

/// How often each answer came.
#[derive(Default)]
struct Counts {
    checks: Numbers,
    lists: Numbers,
    arcs: Numbers,
    texts: Numbers,
    yes: u64,
    /// Accepted certificates by the most weightings of one component.
    weightings: [u64; 1 + WEIGHTING_LIMIT as usize],
    unifier: Unifier,
}

/// How often a unifier is asked for where document 01's own arcs need none.
#[derive(Default)]
struct Unifier {
    /// Packs with a variable twice on a left side.
    packs: u64,
    /// Arc questions answered no for want of a unifier.
    arcs: u64,
    /// Checks that document 01's own arcs would end with 9, and those with 10.
    back: Spared,
    itself: Spared,
}

/// Checks that get another answer, and those of them that accept.
#[derive(Default)]
struct Spared {
    all: u64,
    accepted: u64,
}

fn main() -> ExitCode {
    run(USAGE, &[], |arguments| compare_all(&Comparison::read(&arguments)?))
}

/// Which implementations are compared, and on which cases.
struct Comparison {
    one: Box<dyn Implementation>,
    other: Box<dyn Implementation>,
    seed: u64,
    count: u64,
}

impl Comparison {
    fn read(arguments: &Arguments) -> Result<Comparison, Failure> {
        let words = &arguments.words;
        let word = |at: usize| words.get(at).map(String::as_str);
        if words.len() > 4 {
            return Err(Failure::Usage(format!("{} words; at most four are wanted", words.len())));
        }
        let count = word(0).map_or(Ok(COUNT), |word| number(word, 1, u64::MAX))?;
        let seed = word(1).map_or(Ok(SEED), |word| number(word, 0, u64::MAX))?;
        if seed.checked_add(count).is_none() {
            return Err(Failure::Usage(format!("{count} cases from seed {seed} pass the greatest seed")));
        }
        let (one, other) = (named(word(2).unwrap_or("checker"))?, named(word(3).unwrap_or(OTHER))?);
        Ok(Comparison { one, other, seed, count })
    }
}

fn named(name: &str) -> Result<Box<dyn Implementation>, Failure> {
    by_name(name).ok_or_else(|| Failure::Usage(format!("{name:?} is no implementation here")))
}

fn compare_all(comparison: &Comparison) -> Result<(), Failure> {
    let Comparison { one, other, seed, count } = comparison;
    let (one, other) = (one.as_ref(), other.as_ref());
    say(format_args!("{} against {}, {count} cases from seed {seed}", one.name(), other.name()));
    let mut counts = Counts::default();
    for seed in *seed..seed + count {
        let case = case(seed);
        compare(one, other, &case, &mut counts).map_err(|difference| {
            let difference = format!("seed {seed}: {} and {} differ in {difference}", one.name(), other.name());
            say(&difference);
            show(&case);
            Failure::Refused(difference)
        })?;
    }
    counts.print();
    say("no difference");
    Ok(())
}

/// Asks both everything the case holds; the text names the first difference.
fn compare(
    one: &dyn Implementation,
    other: &dyn Implementation,
    case: &Case,
    counts: &mut Counts,
) -> Result<(), String> {
    let answers = (one.check(&case.pack, &case.certificate), other.check(&case.pack, &case.certificate));
    same("check", answers.0, answers.1)?;
    count(&mut counts.checks, answers.0);
    if answers.0 == 0 {
        counts.weightings[most_weightings(&case.certificate)] += 1;
    }
    let repeated = judge_pack(&case.pack).ok().filter(has_repeated_variable);
    if repeated.is_some() {
        counts.unifier.packs += 1;
        counts.unifier.count_check(case, answers.0);
    }
    compare_lists(one, other, case, counts)?;
    for question in &case.questions {
        let answers = (one.arc(&case.pack, *question), other.arc(&case.pack, *question));
        same(&format!("arc {question:?}"), answers.0, answers.1)?;
        count(&mut counts.arcs, answers.0 .0);
        counts.yes += u64::from(answers.0 .1 == 1);
        let denied = repeated.as_ref().filter(|_| answers.0 == NO);
        counts.unifier.arcs += u64::from(denied.is_some_and(|pack| reaches(pack, *question)));
    }
    for question in &case.texts {
        compare_texts(one, other, question, counts)?;
    }
    Ok(())
}

/// Also the bytes that no record fills must be the same, and the pattern.
fn compare_lists(
    one: &dyn Implementation,
    other: &dyn Implementation,
    case: &Case,
    counts: &mut Counts,
) -> Result<(), String> {
    let mut lists = (vec![PATTERN; case.room], vec![PATTERN; case.room]);
    let answers = (one.list(&case.pack, &mut lists.0), other.list(&case.pack, &mut lists.1));
    same(&format!("list of {} bytes", case.room), answers.0, answers.1)?;
    count(&mut counts.lists, answers.0 .0);
    let filled = answers.0 .1 as usize * 8;
    let kept = |list: &[u8]| list.get(filled..).is_some_and(|rest| rest.iter().all(|byte| *byte == PATTERN));
    if lists.0 != lists.1 || !kept(&lists.0) {
        return Err(format!("list of {} bytes: the bytes differ, or those after the records changed", case.room));
    }
    Ok(())
}

/// All bytes of the buffers must be the same, and the pattern where no pack is; nothing if one of them reads no texts.
fn compare_texts(
    one: &dyn Implementation,
    other: &dyn Implementation,
    TextQuestion { text, room }: &TextQuestion,
    counts: &mut Counts,
) -> Result<(), String> {
    let mut packs = (vec![PATTERN; *room], vec![PATTERN; *room]);
    let answers = (one.read_text(text, &mut packs.0), other.read_text(text, &mut packs.1));
    let (Some(first), Some(second)) = answers else {
        return Ok(());
    };
    let what = format!("text of {} bytes, {room} lent", text.len());
    same(&what, first, second)?;
    count(&mut counts.texts, first.0);
    let kept = |pack: &[u8]| pack.get(first.1 as usize..).is_some_and(|rest| rest.iter().all(|byte| *byte == PATTERN));
    if packs.0 != packs.1 || !kept(&packs.0) {
        return Err(format!("{what}: the packs differ, or the bytes after them changed"));
    }
    Ok(())
}

fn same<T: PartialEq + std::fmt::Debug>(what: &str, one: T, other: T) -> Result<(), String> {
    if one == other {
        Ok(())
    } else {
        Err(format!("{what}: {one:?} and {other:?}"))
    }
}

/// Does document 01's own arc run between these two pairs of the pack?
fn reaches(pack: &Pack, question: [u32; 4]) -> bool {
    let [rule, place, other_rule, other_place] = question.map(|number| number as u16);
    arc_by_reach(pack, pair_right(pack, (rule, place)), pair_left(pack, (other_rule, other_place)))
}

/// The most weightings that one component of an accepted certificate has.
fn most_weightings(certificate: &[u8]) -> usize {
    let (records, _) = certificate.as_chunks::<8>();
    let heads = records.iter().filter(|record| record[0] == b'C');
    heads.map(|record| usize::from(record[4])).max().unwrap_or(0)
}

fn count(counts: &mut Numbers, number: u32) {
    counts[(number as usize).min(counts.len() - 1)] += 1;
}

/// Both files of a case as text, and its texts with what is no letter escaped.
fn show(case: &Case) {
    let certificate = disassemble_certificate(&case.certificate, &case.pack);
    say(format_args!("--- pack, {} bytes\n{}", case.pack.len(), disassemble_pack(&case.pack)));
    say(format_args!("--- certificate, {} bytes\n{certificate}", case.certificate.len()));
    for TextQuestion { text, room } in &case.texts {
        say(format_args!("--- text, {} bytes, {room} lent\n{}", text.len(), text.escape_ascii()));
    }
}

impl Unifier {
    /// Every arc here is one there, so that only an answer past 9 can be another one there.
    fn count_check(&mut self, case: &Case, answer: u32) {
        if (1..=BACK_ARC).contains(&answer) {
            return;
        }
        let spared = match check_by_reach(&case.pack, &case.certificate) {
            BACK_ARC => &mut self.back,
            SELF_ARC if answer != SELF_ARC => &mut self.itself,
            _ => return,
        };
        spared.all += 1;
        spared.accepted += u64::from(answer == 0);
    }

    fn print(&self) {
        say(format_args!("{} packs have a variable twice on a left side", self.packs));
        say(format_args!("{} arc questions are answered no for want of a unifier alone", self.arcs));
        for (number, Spared { all, accepted }) in [(BACK_ARC, &self.back), (SELF_ARC, &self.itself)] {
            say(format_args!("{all} checks are not {number} for want of a unifier alone, {accepted} of them accepted"));
        }
    }
}

impl Counts {
    fn print(&self) {
        say(format_args!("{:>6} {:>9} {:>9} {:>9} {:>9}", "answer", "checks", "lists", "arcs", "texts"));
        for number in 0..18 {
            let [checks, lists, arcs, texts] = [self.checks, self.lists, self.arcs, self.texts].map(|all| all[number]);
            say(format_args!("{number:>6} {checks:>9} {lists:>9} {arcs:>9} {texts:>9}"));
        }
        say(format_args!("{} of the arc answers 0 are yes, {} no", self.yes, self.arcs[0] - self.yes));
        let accepted: Vec<String> = self.weightings.iter().map(u64::to_string).collect();
        say(format_args!("accepted with at most 0, 1, 2 .. weightings in a component: {}", accepted.join(" ")));
        self.unifier.print();
    }
}
