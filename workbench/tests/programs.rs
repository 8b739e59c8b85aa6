//! The programs from outside: arguments, statuses, and output that nobody takes.

use std::fs::{self, File};
use std::path::{Path, PathBuf};
use std::process::{Command, Output, Stdio};
use workbench::checker::check;
use workbench::solver_text::read_text;

const ASSEMBLE: &str = env!("CARGO_BIN_EXE_assemble");
const DISASSEMBLE: &str = env!("CARGO_BIN_EXE_disassemble");
const COMPARE: &str = env!("CARGO_BIN_EXE_compare");
const BENCH: &str = env!("CARGO_BIN_EXE_bench");
const SEARCH: &str = env!("CARGO_BIN_EXE_search");
const CHECK_EXAMPLES: &str = env!("CARGO_BIN_EXE_check-examples");
const ALL: [&str; 6] = [ASSEMBLE, DISASSEMBLE, COMPARE, BENCH, SEARCH, CHECK_EXAMPLES];

fn run(program: &str, arguments: &[&str]) -> Output {
    Command::new(program).args(arguments).output().unwrap()
}

fn text(bytes: &[u8]) -> &str {
    std::str::from_utf8(bytes).unwrap()
}

/// It ends with this status, one line on standard error and nothing on standard output.
fn fails(program: &str, arguments: &[&str], status: i32) -> String {
    let output = run(program, arguments);
    let why = text(&output.stderr).to_string();
    assert_eq!(output.status.code(), Some(status), "{program} {arguments:?}: {why}");
    assert_eq!(why.lines().count(), 1, "{program} {arguments:?}: {why}");
    assert_eq!(text(&output.stdout), "", "{program} {arguments:?}");
    why
}

/// Its arguments are refused.
fn misused(program: &str, arguments: &[&str]) {
    let why = fails(program, arguments, 2);
    assert!(why.contains("usage: "), "{program} {arguments:?}: {why}");
}

fn succeeds(program: &str, arguments: &[&str]) -> String {
    let output = run(program, arguments);
    assert_eq!(output.status.code(), Some(0), "{program} {arguments:?}: {}", text(&output.stderr));
    assert_eq!(text(&output.stderr), "", "{program} {arguments:?}");
    text(&output.stdout).to_string()
}

fn example(name: &str) -> String {
    let path = Path::new(env!("CARGO_MANIFEST_DIR")).join("../examples").join(name);
    path.to_str().unwrap().to_string()
}

/// An empty folder of that name.
fn folder(name: &str) -> PathBuf {
    let path = Path::new(env!("CARGO_TARGET_TMPDIR")).join(name);
    if path.exists() {
        fs::remove_dir_all(&path).unwrap();
    }
    fs::create_dir_all(&path).unwrap();
    path
}

fn write(folder: &Path, name: &str, text: impl AsRef<[u8]>) -> String {
    let path = folder.join(name);
    fs::write(&path, text).unwrap();
    path.to_str().unwrap().to_string()
}

fn names(folder: &Path) -> Vec<String> {
    let mut names: Vec<String> =
        fs::read_dir(folder).unwrap().map(|entry| entry.unwrap().file_name().into_string().unwrap()).collect();
    names.sort();
    names
}

// ---------------------------------------------------------------- arguments

#[test]
fn help_is_no_failure() {
    for program in ALL {
        let name = Path::new(program).file_name().unwrap().to_str().unwrap();
        assert!(succeeds(program, &["--help"]).starts_with(name), "{name}");
        misused(program, &["--help", "--help"]);
        misused(program, &["--unknown"]);
        misused(program, &["-x"]);
        misused(program, &["1", "2", "3", "4", "5"]);
    }
}

#[test]
fn compare_refuses_wrong_arguments() {
    misused(COMPARE, &["3", "18446744073709551615"]);
    misused(COMPARE, &["18446744073709551615", "1"]);
    for count in ["0", "-1", "+1", "1.5", "many", "", "18446744073709551616"] {
        misused(COMPARE, &[count]);
    }
    misused(COMPARE, &["1", "seed"]);
    misused(COMPARE, &["1", "1", "nobody"]);
    misused(COMPARE, &["1", "1", "checker", "nobody"]);
    misused(COMPARE, &["1", "1", "checker", "tuned", "more"]);
    // The greatest seeds are cases too.
    for arguments in [["3", "18446744073709551612"], ["1", "0"]] {
        let said = succeeds(COMPARE, &[arguments[0], arguments[1], "checker", "tuned"]);
        assert!(said.starts_with(&format!("checker against tuned, {} cases", arguments[0])), "{said}");
        assert!(said.ends_with("no difference\n"), "{said}");
    }
}

#[test]
fn bench_and_search_refuse_wrong_arguments() {
    for rounds in ["0", "10001", "-1", "+1", "x", ""] {
        misused(BENCH, &[rounds]);
    }
    misused(BENCH, &["1", "1"]);
    misused(BENCH, &["--before", "file.a", "1"]);
    #[cfg(not(feature = "before"))]
    fails(BENCH, &["--before"], 2);
    let pack = example("division.pack.txt");
    for restarts in ["0", "1000001", "-1", "+1", "x", ""] {
        misused(SEARCH, &[&pack, restarts]);
    }
    misused(SEARCH, &[]);
    misused(SEARCH, &[&pack, "1", "1"]);
    fails(SEARCH, &["no-such-file"], 2);
}

/// It is built with the library only; a tool that fails is no answer, and no folder stays behind.
#[cfg(all(feature = "library", target_os = "linux"))]
#[test]
fn folder_refuses_wrong_arguments_and_answers() {
    use std::os::unix::fs::PermissionsExt;
    const FOLDER: &str = env!("CARGO_BIN_EXE_folder");
    for count in ["0", "100001", "-1", "+1", "x", ""] {
        misused(FOLDER, &["/bin/true", "/bin/true", count]);
    }
    misused(FOLDER, &["/bin/true"]);
    misused(FOLDER, &["/bin/true", "/bin/true", "1", "1"]);
    let tools = folder("tools");
    let wrong = write(&tools, "wrong", "#!/bin/sh\necho refused 24\n");
    let failing = write(&tools, "failing", "#!/bin/sh\necho no room >&2\nexit 2\n");
    for tool in [&wrong, &failing] {
        fs::set_permissions(tool, fs::Permissions::from_mode(0o755)).unwrap();
    }
    let room = folder("no-folder-stays");
    for (tool, status, words) in [
        (wrong.as_str(), 1, "00000.pack: \"refused 24\", not \"accepted\""),
        ("/bin/true", 2, "0 whole lines, not 1"),
        (failing.as_str(), 2, "exit status: 2; standard error ends in \"no room\""),
        ("no-such-file", 2, "no-such-file: "),
    ] {
        let output = Command::new(FOLDER).args([tool, tool, "1"]).env("TMPDIR", &room).output().unwrap();
        let why = text(&output.stderr);
        assert_eq!(output.status.code(), Some(status), "{tool}: {why}");
        assert!(why.contains(words) && why.lines().count() == 1, "{tool}: {why}");
        assert_eq!(text(&output.stdout), "", "{tool}");
        assert_eq!(names(&room), [] as [&str; 0], "{tool}");
    }
}

#[test]
fn assemble_and_disassemble_refuse_wrong_arguments() {
    let pack = example("division.pack");
    misused(ASSEMBLE, &[]);
    misused(ASSEMBLE, &["pack", &pack]);
    misused(ASSEMBLE, &["pack", &pack, "out", "more"]);
    misused(ASSEMBLE, &["packs", &pack, "out"]);
    misused(ASSEMBLE, &["--loose", "--loose", "pack", &pack, "out"]);
    misused(ASSEMBLE, &["--lose", "pack", &pack, "out"]);
    misused(DISASSEMBLE, &[]);
    misused(DISASSEMBLE, &["pack"]);
    misused(DISASSEMBLE, &["pack", &pack, &pack]);
    misused(DISASSEMBLE, &["packs", &pack]);
    misused(DISASSEMBLE, &["cert", &pack, &pack, &pack]);
    misused(DISASSEMBLE, &["--loose", "pack", &pack]);
    fails(DISASSEMBLE, &["pack", "no-such-file"], 2);
    fails(DISASSEMBLE, &["cert", &pack, "no-such-file"], 2);
}

#[cfg(unix)]
#[test]
fn an_argument_need_not_be_text() {
    use std::os::unix::ffi::OsStrExt;
    for program in ALL {
        let output = Command::new(program).arg(std::ffi::OsStr::from_bytes(b"\xff")).output().unwrap();
        assert_eq!(output.status.code(), Some(2));
        assert_eq!(text(&output.stderr).lines().count(), 1);
    }
}

// ---------------------------------------------------------------- texts and files

#[test]
fn assemble_is_strict_unless_told() {
    let folder = folder("assemble");
    let out = folder.join("out").to_str().unwrap().to_string();
    let wrong = write(&folder, "wrong.txt", "symbols f/2 g/2\nvariables x y z\nf(g(x), y, z) -> f(x, y)\n");
    let why = fails(ASSEMBLE, &["pack", &wrong, &out], 1);
    assert!(why.contains("line 3: \"g\" has the arity 2"), "{why}");
    assert_eq!(names(&folder), ["wrong.txt"]);
    succeeds(ASSEMBLE, &["--loose", "pack", &wrong, &out]);
    assert_eq!(fs::read(&out).unwrap().len(), 2 * 8 + 8 + 8 * 8);
    // A refused text leaves what stood there.
    fails(ASSEMBLE, &["pack", &wrong, &out], 1);
    assert_eq!(fs::read(&out).unwrap().len(), 2 * 8 + 8 + 8 * 8);
    succeeds(ASSEMBLE, &["pack", &example("division.pack.txt"), &out]);
    assert_eq!(fs::read(&out).unwrap(), fs::read(example("division.pack")).unwrap());
    succeeds(ASSEMBLE, &["cert", &example("division.cert.txt"), &out]);
    assert_eq!(fs::read(&out).unwrap(), fs::read(example("division.cert")).unwrap());
    assert_eq!(names(&folder), ["out", "wrong.txt"]);
}

#[test]
fn deep_and_odd_texts_do_not_abort() {
    let folder = folder("odd");
    let out = folder.join("out").to_str().unwrap().to_string();
    let deep = format!("symbols f/1\n{}", "f(".repeat(100_000));
    let deep = write(&folder, "deep.txt", format!("{deep} -> f"));
    let odd = write(&folder, "odd.txt", b"symbols f/1\nf(\0\xc3\xa9) -> f\n");
    for text in [&deep, &odd] {
        fails(ASSEMBLE, &["pack", text, &out], 1);
        fails(ASSEMBLE, &["--loose", "pack", text, &out], 1);
    }
    let bytes = write(&folder, "bytes.txt", b"symbols \xff/1\n");
    fails(ASSEMBLE, &["pack", &bytes, &out], 2);
    fails(ASSEMBLE, &["pack", "no-such-file", &out], 2);
    assert_eq!(names(&folder), ["bytes.txt", "deep.txt", "odd.txt"]);
}

/// A file that cannot be written whole is not written at all.
#[cfg(target_os = "linux")]
#[test]
fn no_half_file_stays_behind() {
    let folder = folder("half");
    let text_of_most = example("most-pairs.pack.txt");
    let out = write(&folder, "out", "as it was");
    // A limit on the size of files, in blocks of 512 or 1,024 bytes: less than the pack has.
    let limited = "trap '' XFSZ; ulimit -f 16; exec \"$0\" pack \"$1\" \"$2\"";
    let output = Command::new("sh").args(["-c", limited, ASSEMBLE, &text_of_most, &out]).output().unwrap();
    assert_eq!(output.status.code(), Some(2), "{}", text(&output.stderr));
    assert_eq!(fs::read(&out).unwrap(), b"as it was");
    assert_eq!(names(&folder), ["out"]);
    fails(ASSEMBLE, &["pack", &text_of_most, folder.to_str().unwrap()], 2);
    fails(ASSEMBLE, &["pack", &text_of_most, folder.join("none/out").to_str().unwrap()], 2);
    fails(ASSEMBLE, &["pack", &text_of_most, "/dev/full"], 2);
    assert_eq!(names(&folder), ["out"]);
    assert!(fs::metadata("/dev/full").unwrap().file_type() != fs::metadata(&out).unwrap().file_type());
}

#[test]
fn disassemble_names_the_mode() {
    let strict = succeeds(DISASSEMBLE, &["pack", &example("division.pack")]);
    assert!(strict.starts_with("symbols c0/0 c1/1 f2/2 f3/2\nvariables x y\n"), "{strict}");
    let strict = succeeds(DISASSEMBLE, &["cert", &example("division.cert"), &example("division.pack")]);
    assert!(strict.starts_with("symbols c0/0"), "{strict}");
    let loose = succeeds(DISASSEMBLE, &["pack", &example("wide.pack")]);
    assert!(loose.starts_with("; assemble with --loose\n"), "{loose}");
}

#[test]
fn search_finds_or_says_so() {
    let found = succeeds(SEARCH, &[&example("division.pack.txt")]);
    let folder = folder("search");
    let (found, out) = (write(&folder, "found.txt", found), folder.join("out"));
    succeeds(ASSEMBLE, &["cert", &found, out.to_str().unwrap()]);
    // No single weighting does for this one.
    let several = succeeds(SEARCH, &[&example("5.1.37-even-and-odd.pack.txt")]);
    assert_eq!(several.matches("\nweighting\n").count(), 1, "{several}");
    succeeds(ASSEMBLE, &["cert", &write(&folder, "several.txt", several), out.to_str().unwrap()]);
    let pack = fs::read(example("5.1.37-even-and-odd.pack")).unwrap();
    assert_eq!(check(&pack, &fs::read(&out).unwrap()), 0);
    let why = fails(SEARCH, &[&example("loop.pack.txt"), "1"], 1);
    assert!(why.contains("no weights found"), "{why}");
    fails(SEARCH, &[&example("wide.pack.txt")], 1);
}

/// What is found for a solver's text fits the pack that its reader makes; a pack's symbols are called by their numbers.
#[test]
fn search_takes_solvers_texts_and_packs() {
    let folder = folder("search-texts");
    let out = folder.join("out").to_str().unwrap().to_string();
    let division = fs::read_to_string(example("division.trs")).unwrap();
    // `record` starts a line of the workbench's own texts and is no name there.
    let odd = write(&folder, "odd.trs", division.replace("minus", "record"));
    let pack = read_text(division.as_bytes(), 1_000).unwrap();
    for (text, pack, symbols) in [
        (example("division.trs"), pack.clone(), "symbols minus/2 zero/0 s/1 quot/2\n"),
        (odd, pack, "symbols f0/2 c1/0 c2/1 f3/2\n"),
        (example("division.pack"), fs::read(example("division.pack")).unwrap(), "symbols c0/0 c1/1 f2/2 f3/2\n"),
    ] {
        let found = succeeds(SEARCH, &[&text]);
        assert!(found.starts_with(symbols), "{found}");
        succeeds(ASSEMBLE, &["cert", &write(&folder, "found.txt", found), &out]);
        assert_eq!(check(&pack, &fs::read(&out).unwrap()), 0);
    }
    let wrong = write(&folder, "wrong.trs", "(VAR)(RULES f(a) -> f)");
    assert!(fails(SEARCH, &[&wrong], 1).contains("refused with 16"));
    assert!(fails(SEARCH, &[&example("texts/loose-variable.trs")], 1).contains("refused with 6"));
    assert!(fails(SEARCH, &[&example("wide.pack")], 1).contains("refused with 3"));
}

// ---------------------------------------------------------------- the examples

/// A copy of the shipped examples, to be spoilt.
fn copied_examples(name: &str) -> PathBuf {
    let copy = folder(name);
    fs::create_dir(copy.join("texts")).unwrap();
    for part in ["", "texts"] {
        for entry in fs::read_dir(example(part)).unwrap() {
            let entry = entry.unwrap();
            if entry.file_type().unwrap().is_file() {
                fs::copy(entry.path(), copy.join(part).join(entry.file_name())).unwrap();
            }
        }
    }
    copy
}

fn add(folder: &Path, name: &str, line: &str) {
    let text = fs::read_to_string(folder.join(name)).unwrap();
    write(folder, name, format!("{text}{line}\n"));
}

/// Check the copy after one change, which is then taken back.
fn spoilt(folder: &Path, name: &str, line: &str, status: i32, words: &str) {
    let before = fs::read_to_string(folder.join(name)).unwrap();
    add(folder, name, line);
    let why = fails(CHECK_EXAMPLES, &[folder.to_str().unwrap()], status);
    assert!(why.contains(words), "{name} with {line}: {why}");
    write(folder, name, before);
}

#[test]
fn check_examples_tells_what_is_wrong() {
    let copy = copied_examples("examples");
    let path = copy.to_str().unwrap();
    assert!(succeeds(CHECK_EXAMPLES, &[path]).contains("as expected"));
    assert!(succeeds(CHECK_EXAMPLES, &["--write", path]).contains("as expected"));
    spoilt(&copy, "loose.txt", "division.pack.txt", 1, "strict mode takes it");
    spoilt(&copy, "loose.txt", "nobody.pack.txt", 2, "nobody.pack.txt");
    spoilt(&copy, "loose.txt", "wide.pack.txt", 2, "wide.pack.txt");
    spoilt(&copy, "loose.txt", "one two", 2, "one two");
    spoilt(&copy, "division.pack.txt", "minus(x, zer0) -> x", 1, "zer0");
    spoilt(&copy, "division.pack.txt", "minus(x, zero) -> x", 1, "bytes");
    spoilt(&copy, "wide.pack.txt", "bytes 1", 1, "bytes");
    spoilt(&copy, "expected.txt", "division.pack division.cert 12", 1, "answers 0, not 12");
    spoilt(&copy, "expected.txt", "division.pack division.cert", 2, "not understood");
    spoilt(&copy, "expected.txt", "division.pack none.cert 0", 2, "none.cert");
    spoilt(&copy, "expected-lists.txt", "division.pack 24 0 2", 1, "(0, 3)");
    spoilt(&copy, "expected-lists.txt", "division.pack 99999999 0 3", 2, "99999999");
    spoilt(&copy, "expected-arcs.txt", "division.pack 1 0 1 0 0 no", 1, "(0, 1)");
    spoilt(&copy, "expected-arcs.txt", "division.pack 1 0 1 0 0 maybe", 2, "maybe");
    spoilt(&copy, "division.pairs", "3 3", 1, "division.pairs");
    spoilt(&copy, "division.trs", "(COMMENT)", 1, "division.trs");
    spoilt(&copy, "texts/nested.trs", "(COMMENT)", 1, "texts/nested.trs 33792 16 0");
    spoilt(&copy, "expected-texts.txt", "division.trs 296 0 295", 1, "(0, 296)");
    spoilt(&copy, "expected-texts.txt", "division.trs 296 14 0", 1, "(0, 296)");
    spoilt(&copy, "expected-texts.txt", "division.trs 296 0", 2, "not understood");
    let stray = write(&copy, "texts/new.trs", "(VAR)(RULES)");
    assert!(fails(CHECK_EXAMPLES, &[path], 1).contains("texts/new.trs"));
    fs::remove_file(stray).unwrap();
    let stray = write(&copy, "new.trs", "(VAR)(RULES)");
    assert!(fails(CHECK_EXAMPLES, &[path], 1).contains("new.trs has no good new.pack"));
    fs::remove_file(stray).unwrap();
    let text = fs::read(copy.join("division.trs")).unwrap();
    fs::remove_file(copy.join("division.trs")).unwrap();
    assert!(fails(CHECK_EXAMPLES, &[path], 1).contains("division.pack has no division.trs"));
    write(&copy, "division.trs", text);
    assert!(succeeds(CHECK_EXAMPLES, &[path]).contains("as expected"));
    let loose = write(&copy, "new.pack.txt", "symbols a/9\n");
    fails(CHECK_EXAMPLES, &[path], 1);
    fs::remove_file(loose).unwrap();
    write(&copy, "expected.txt", "; none\n");
    fails(CHECK_EXAMPLES, &[path], 2);
}

#[cfg(target_os = "linux")]
#[test]
fn check_examples_passes_nothing_over() {
    use std::os::unix::ffi::OsStrExt;
    misused(CHECK_EXAMPLES, &["one", "two"]);
    misused(CHECK_EXAMPLES, &["--wrote"]);
    fails(CHECK_EXAMPLES, &["no-such-folder"], 2);
    let copy = copied_examples("unreadable");
    let odd = copy.join(std::ffi::OsStr::from_bytes(b"\xff.pack.txt"));
    fs::write(&odd, "symbols a/9").unwrap();
    fails(CHECK_EXAMPLES, &[copy.to_str().unwrap()], 2);
    fs::remove_file(&odd).unwrap();
    fs::create_dir(copy.join("folder.pack.txt")).unwrap();
    fails(CHECK_EXAMPLES, &[copy.to_str().unwrap()], 2);
}

// ---------------------------------------------------------------- output that nobody takes

/// Calls that print something at once.
fn printing() -> Vec<(&'static str, Vec<String>)> {
    let words = |words: &[&str]| words.iter().map(|word| word.to_string()).collect::<Vec<String>>();
    vec![
        (BENCH, words(&["1"])),
        (COMPARE, words(&["1"])),
        (CHECK_EXAMPLES, vec![]),
        (DISASSEMBLE, vec!["pack".into(), example("division.pack")]),
        (DISASSEMBLE, vec!["pack".into(), example("most-pairs.pack")]),
        (SEARCH, vec![example("division.pack.txt")]),
        (ASSEMBLE, words(&["--help"])),
    ]
}

/// A pipe whose reader has gone is no success and no panic.
#[test]
fn a_closed_pipe_ends_quietly() {
    for (program, arguments) in printing() {
        let (reader, writer) = std::io::pipe().unwrap();
        drop(reader);
        let output = Command::new(program).args(&arguments).stdout(writer).stderr(Stdio::piped()).output().unwrap();
        assert_eq!(output.status.code(), Some(2), "{program} {arguments:?}");
        assert_eq!(text(&output.stderr), "", "{program} {arguments:?}");
    }
}

/// A device without room is told.
#[cfg(target_os = "linux")]
#[test]
fn a_full_device_is_told() {
    for (program, arguments) in printing() {
        let full = File::create("/dev/full").unwrap();
        let output = Command::new(program).args(&arguments).stdout(full).stderr(Stdio::piped()).output().unwrap();
        assert_eq!(output.status.code(), Some(2), "{program} {arguments:?}");
        let why = text(&output.stderr);
        assert!(why.starts_with("standard output: ") && why.lines().count() == 1, "{program} {arguments:?}: {why}");
        // Nor does it matter that nobody takes the complaint.
        let full = || File::create("/dev/full").unwrap();
        let status = Command::new(program).args(&arguments).stdout(full()).stderr(full()).status().unwrap();
        assert_eq!(status.code(), Some(2), "{program} {arguments:?}");
    }
}
