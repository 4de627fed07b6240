//! The stored answers are held only where they are there and agree.
use std::fs;
use std::path::{Path, PathBuf};

use cases::stored::{Failure, verify};

/// A copy of the stored answers for the test of this name.
fn copy(name: &str) -> PathBuf {
    let folder = Path::new(env!("CARGO_TARGET_TMPDIR")).join(name);
    let _ = fs::remove_dir_all(&folder);
    fs::create_dir_all(&folder).unwrap();
    for entry in fs::read_dir(Path::new(env!("CARGO_MANIFEST_DIR")).join("../../crates/replay/data")).unwrap() {
        let path = entry.unwrap().path();
        fs::copy(&path, folder.join(path.file_name().unwrap())).unwrap();
    }
    folder
}

fn unread(folder: &Path) -> String {
    match verify(folder) {
        Err(Failure::Unread(what)) => what,
        other => panic!("{other:?}"),
    }
}

#[test]
fn an_empty_folder_holds_nothing() {
    let folder = copy("stored-empty");
    for entry in fs::read_dir(&folder).unwrap() {
        fs::remove_file(entry.unwrap().path()).unwrap();
    }
    assert!(unread(&folder).contains("search-1.txt has 0 answers of its search, not "));
    assert!(unread(&folder.join("nowhere")).contains("nowhere: "));
}

#[test]
fn a_file_that_is_missing_or_cut_is_named() {
    let folder = copy("stored-cut");
    let path = folder.join("search-8.txt");
    let text = fs::read_to_string(&path).unwrap();
    let (middle, _) = text.match_indices("\nsearch").nth(200).expect("a case begins with its search");
    fs::write(&path, &text[..=middle]).unwrap();
    assert!(unread(&folder).contains("search-8.txt has 200 answers of its search, not "));
    fs::remove_file(&path).unwrap();
    assert!(unread(&folder).contains("search-8.txt has 0 answers of its search, not "));
}

#[test]
fn wrong_takes_differ() {
    let folder = copy("stored-takes");
    let path = folder.join("small.txt");
    let text = fs::read_to_string(&path).unwrap();
    let changed = text.replacen("\naccepted 3 ", "\naccepted 4 ", 1);
    assert_ne!(text, changed);
    fs::write(&path, changed).unwrap();
    match verify(&folder) {
        Err(Failure::Differs(what)) => assert!(what.contains("differ in takes: 4 against 3"), "{what}"),
        other => panic!("{other:?}"),
    }
}
