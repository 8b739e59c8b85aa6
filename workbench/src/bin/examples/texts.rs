//! The examples' solvers' texts: `NAME.trs` for each good pack `NAME.pack`, and the small ones of `expected-texts.txt`.

use crate::{expect, names, room, Answer};
use std::path::Path;
use workbench::checker::{judge_pack, PACK_LIMIT};
use workbench::encode::pack_bytes;
use workbench::examples::{self, number, odd_line, table};
use workbench::files::{read, read_text, write};
use workbench::implementation::{Checker, Implementation};
use workbench::renumber::{certificate, renumbered, Renumbered};
use workbench::report::Failure;
use workbench::solver_text;
use workbench::text::solver_text as written;

const ANSWERS: &str = "expected-texts.txt";
/// The folder of the small texts.
const SMALL: &str = "texts";
/// What stands in a lent buffer before the call.
const PATTERN: u8 = 0xA7;

fn refused(why: String) -> Failure {
    Failure::Refused(why)
}

/// The names before `.pack` of the packs that pass 1 to 6.
fn good_packs(folder: &Path) -> Answer<Vec<String>> {
    let mut good = Vec::new();
    for name in names(folder)? {
        if let Some(stem) = name.strip_suffix(".pack") {
            if judge_pack(&read(folder.join(&name))?).is_ok() {
                good.push(stem.to_string());
            }
        }
    }
    Ok(good)
}

/// Writes `NAME.trs` from `NAME.pack.txt`.
pub fn write_all(folder: &Path) -> Answer<()> {
    for stem in good_packs(folder)? {
        let source = format!("{stem}.pack.txt");
        let text = written(&read_text(folder.join(&source))?).map_err(|why| refused(format!("{source}: {why}")))?;
        write(folder.join(format!("{stem}.trs")), text.as_bytes())?;
    }
    Ok(())
}

/// Each good pack has a text, and each text a good pack; answers how many.
pub fn count(folder: &Path) -> Answer<usize> {
    let good = good_packs(folder)?;
    let texts: Vec<String> =
        names(folder)?.iter().filter_map(|name| name.strip_suffix(".trs")).map(Into::into).collect();
    let missing = good.iter().find(|stem| !texts.contains(stem)).map(|stem| format!("{stem}.pack has no {stem}.trs"));
    let left = texts.iter().find(|stem| !good.contains(stem)).map(|stem| format!("{stem}.trs has no good {stem}.pack"));
    missing.or(left).map_or(Ok(texts.len()), |why| Err(refused(why)))
}

/// Texts, if it reads them, and renumbered packs; answers how much was asked.
pub fn ask(folder: &Path, implementation: &dyn Implementation) -> Answer<usize> {
    let asked = checks(folder, implementation)?;
    if implementation.read_text(&[], &mut []).is_none() {
        return Ok(asked);
    }
    Ok(asked + texts_of_packs(folder, implementation)? + small_texts(folder, implementation)?)
}

/// `NAME.trs` gives the pack of `NAME.pack` with numbers by first appearance.
fn texts_of_packs(folder: &Path, implementation: &dyn Implementation) -> Answer<usize> {
    let good = good_packs(folder)?;
    for stem in &good {
        let name = format!("{stem}.trs");
        let wanted = pack_bytes(&renumbered_pack(folder, stem)?.pack);
        let text = read(folder.join(&name))?;
        expect_pack(implementation, &[name], Ok(wanted), &text, PACK_LIMIT)?;
    }
    Ok(good.len())
}

/// Holds one to the number and the length, then to the bytes.
fn expect_pack(
    implementation: &dyn Implementation,
    line: &[String],
    wanted: Result<Vec<u8>, u32>,
    text: &[u8],
    room: usize,
) -> Answer<()> {
    let got = asked_text(implementation, text, room);
    expect(implementation, line, short(&wanted), short(&got))?;
    if wanted == got {
        return Ok(());
    }
    Err(refused(format!("{}: {} gives another pack of that length", line.join(" "), implementation.name())))
}

/// Number and length.
fn short(answer: &Result<Vec<u8>, u32>) -> (u32, u32) {
    answer.as_ref().map_or_else(|number| (*number, 0), |pack| (0, pack.len() as u32))
}

fn renumbered_pack(folder: &Path, stem: &str) -> Answer<Renumbered> {
    let pack = judge_pack(&read(folder.join(format!("{stem}.pack")))?);
    Ok(renumbered(&pack.map_err(|number| refused(format!("{stem}.pack is refused with {number}")))?))
}

/// The pack's bytes or the number; where a byte changed that should not, a number that is none.
fn asked_text(implementation: &dyn Implementation, text: &[u8], room: usize) -> Result<Vec<u8>, u32> {
    let mut pack = vec![PATTERN; room];
    let (number, length) = implementation.read_text(text, &mut pack).unwrap_or((u32::MAX, 0));
    let length = (length as usize).min(room);
    let kept = pack[length..].iter().all(|byte| *byte == PATTERN);
    pack.truncate(length);
    match number {
        0 if kept => Ok(pack),
        _ if kept && length == 0 => Err(number),
        _ => Err(u32::MAX),
    }
}

/// `text room answer length`; the bytes are the plain reader's.
fn small_texts(folder: &Path, implementation: &dyn Implementation) -> Answer<usize> {
    let lines = table(folder, ANSWERS)?;
    for line in &lines {
        let [name, size, answer, length] = &line[..] else {
            return Err(odd_line(ANSWERS, line));
        };
        let (text, room) = (read(folder.join(name))?, room(size)?);
        let plain = solver_text::read_text(&text, room);
        expect(&Checker, line, (number(answer)?, number(length)?), short(&plain))?;
        expect_pack(implementation, line, plain, &text, room)?;
    }
    nothing_left_out(folder, &lines)?;
    Ok(lines.len())
}

/// Every small text has its line.
fn nothing_left_out(folder: &Path, lines: &[Vec<String>]) -> Answer<()> {
    for name in names(&folder.join(SMALL))? {
        let name = format!("{SMALL}/{name}");
        if !lines.iter().any(|line| line[0] == name) {
            return Err(refused(format!("{ANSWERS} has no line for {name}")));
        }
    }
    Ok(())
}

/// The expected answers hold for the renumbered packs too, with their certificates renumbered alike.
fn checks(folder: &Path, implementation: &dyn Implementation) -> Answer<usize> {
    let good = good_packs(folder)?;
    let mut count = 0;
    for check in examples::checks(folder)? {
        let Some(stem) = check.line[0].strip_suffix(".pack").filter(|stem| good.iter().any(|other| other == stem))
        else {
            continue;
        };
        let renumbered = renumbered_pack(folder, stem)?;
        let Some(file) = certificate(&check.certificate, &renumbered.symbols) else {
            continue;
        };
        let line = [vec![format!("{stem}.trs")], check.line.clone()].concat();
        expect(implementation, &line, check.answer, implementation.check(&pack_bytes(&renumbered.pack), &file))?;
        count += 1;
    }
    Ok(count)
}
