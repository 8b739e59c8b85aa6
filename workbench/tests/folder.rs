//! A folder of packs, and holding what a tool says of it.

use std::fs;
use std::time::Duration;
use workbench::files::{read_into, Temporary};
use workbench::folder::{answer, entries, hold, list, listed, middle, write_files, Line};
use workbench::report::Failure;

const COUNT: usize = 60;

#[test]
fn the_folder_is_the_same_each_time() {
    let folder = Temporary::new("workbench-same").unwrap();
    write_files(folder.path(), &entries(COUNT)).unwrap();
    let mut buffer = [0; 40_000];
    for (name, bytes) in entries(COUNT).iter().flat_map(|entry| entry.files()) {
        let length = read_into(folder.path().join(name), &mut buffer).unwrap();
        assert_eq!(&buffer[..length], bytes, "{name}");
    }
}

#[test]
fn most_are_accepted_and_some_refused() {
    let accepted = entries(COUNT).iter().filter(|entry| entry.answer == 0).count();
    assert!((COUNT * 3 / 4..COUNT).contains(&accepted), "{accepted}");
}

#[test]
fn a_temporary_folder_goes_with_all_in_it() {
    let folder = Temporary::new("workbench-gone").unwrap();
    let path = folder.path().to_path_buf();
    fs::write(path.join("file"), "some").unwrap();
    assert!(matches!(Temporary::new("workbench-gone"), Err(Failure::CouldNotRun(_))));
    drop(folder);
    assert!(!path.exists());
}

#[test]
fn a_full_buffer_ends_the_reading() {
    let folder = Temporary::new("workbench-full").unwrap();
    let path = folder.path().join("file");
    fs::write(&path, "some bytes").unwrap();
    assert_eq!(read_into(&path, &mut [0; 4]), Ok(4));
    assert_eq!(read_into(&path, &mut [0; 11]), Ok(10));
    assert!(matches!(read_into(folder.path().join("none"), &mut []), Err(Failure::CouldNotRun(_))));
}

/// The list's names, the answer for each in their order, and the counts.
#[test]
fn a_list_is_answered_line_by_line() {
    let mut three = entries(3);
    three.iter_mut().zip([0, 12, 0]).for_each(|(entry, answer)| entry.answer = answer);
    assert_eq!(list(&three), "00000.pack\t00000.cert\n00001.pack\t00001.cert\n00002.pack\t00002.cert\n");
    let said = "00000.pack accepted\n00001.pack refused 12\n00002.pack accepted\n";
    let said = format!("{said}accepted 2, refused 1, could not be read 0\n");
    assert_eq!(hold(&said, &listed(&three)), Ok(()));
    differs(&said.replace("refused 12", "refused 1"), &listed(&three), "00001.pack: ");
    differs(&said.replace("00002.pack", "00001.pack"), &listed(&three), "00002.pack: ");
    differs(&said.replace("read 0", "read 1"), &listed(&three), "the counts: ");
    let each: Vec<Line> = three.iter().map(answer).collect();
    assert_eq!(hold("accepted\nrefused 12\naccepted\n", &each), Ok(()));
    differs("accepted\naccepted\nrefused 12\n", &each, "00001.pack: ");
    for failed in ["", "accepted\n", "accepted\nrefused 12\naccepted", "accepted\nrefused 12\naccepted\n\n"] {
        assert!(matches!(hold(failed, &each), Err(Failure::CouldNotRun(_))), "{failed:?}");
    }
}

fn differs(said: &str, due: &[Line], about: &str) {
    match hold(said, due) {
        Err(Failure::Refused(why)) => assert!(why.starts_with(about), "{why}"),
        other => panic!("{said:?}: {other:?}"),
    }
}

#[test]
fn the_middle_one_is_in_the_middle() {
    let middle = |times: &[u64]| middle(times.iter().map(|time| Duration::from_secs(*time)).collect()).as_secs();
    assert_eq!(middle(&[7]), 7);
    assert_eq!(middle(&[9, 1, 2]), 2);
    assert_eq!(middle(&[5, 90, 4, 6, 1]), 5);
}
