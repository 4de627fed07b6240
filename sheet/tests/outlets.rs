//! Where outputs go: through links, with the permissions of what they replace, and never two to one place.
mod common;
use std::fs::{self, Permissions};
use std::os::unix::fs::{MetadataExt, PermissionsExt, chown, symlink};
use std::path::{Path, PathBuf};

use common::{cells, failure, folder, grid, said};

const WORDS: &str = "distance --targets landings.asc";

/// A folder with landings, an older sheet and a folder in it.
fn stand(name: &str) -> common::Folder {
    let folder = folder(name);
    grid(&folder, "landings.asc", "1 0 0");
    fs::write(folder.join("old.asc"), "an older sheet").unwrap();
    fs::create_dir(folder.join("sub")).unwrap();
    folder
}

/// All names in a folder, in order.
fn names(folder: &Path) -> Vec<String> {
    let entries = fs::read_dir(folder).unwrap();
    let mut names: Vec<String> = entries.map(|entry| entry.unwrap().file_name().into_string().unwrap()).collect();
    names.sort();
    names
}

fn permissions(path: &Path) -> u32 {
    fs::metadata(path).unwrap().mode() & 0o7777
}

#[test]
fn a_link_stays_a_link() {
    let folder = stand("outlets-links");
    fs::write(folder.join("sub/deep.asc"), "an older sheet").unwrap();
    symlink("old.asc", folder.join("near")).unwrap();
    symlink("sub/deep.asc", folder.join("far")).unwrap();
    symlink(folder.join("far"), folder.join("further")).unwrap();
    for (link, leads_to, file) in [
        ("near", PathBuf::from("old.asc"), "old.asc"),
        ("further", folder.join("far"), "sub/deep.asc"),
        ("far", PathBuf::from("sub/deep.asc"), "sub/deep.asc"),
    ] {
        fs::write(folder.join(file), "an older sheet").unwrap();
        said(&folder, &format!("{WORDS} --out {link}"));
        assert_eq!(fs::read_link(folder.join(link)).unwrap(), leads_to);
        assert_eq!(cells(&folder, file), "0 1 2");
    }
    assert_eq!(names(&folder), ["far", "further", "landings.asc", "near", "old.asc", "sub"]);
    assert_eq!(names(&folder.join("sub")), ["deep.asc"]);
}

#[test]
fn a_link_to_nothing_yet() {
    let folder = stand("outlets-dangling");
    symlink("sub/new.asc", folder.join("link.asc")).unwrap();
    symlink("sub/new.png", folder.join("link.png")).unwrap();
    said(&folder, &format!("{WORDS} --out link.asc --picture link.png"));
    assert_eq!(cells(&folder, "sub/new.asc"), "0 1 2");
    assert!(folder.join("link.png").is_symlink() && folder.join("sub/new.png").is_file());

    symlink("absent/new.asc", folder.join("nowhere")).unwrap();
    let sentence = failure(&folder, &format!("{WORDS} --out nowhere"));
    assert_eq!(sentence, "nowhere can't be written: No such file or directory (os error 2)");
}

#[test]
fn links_that_lead_nowhere() {
    let folder = stand("outlets-loop");
    symlink("b", folder.join("a")).unwrap();
    symlink("a", folder.join("b")).unwrap();
    let sentence = failure(&folder, &format!("{WORDS} --out a"));
    assert_eq!(sentence, "a can't be written: Too many levels of symbolic links (os error 40)");
    symlink("sub", folder.join("link")).unwrap();
    let sentence = failure(&folder, &format!("{WORDS} --out link"));
    assert_eq!(sentence, "link can't be written: is a directory");
    let sentence = failure(&folder, &format!("{WORDS} --out new/"));
    assert_eq!(sentence, "new/ can't be written: not a directory");
    let sentence = failure(&folder, &format!("{WORDS} --out old.asc/new"));
    assert_eq!(sentence, "old.asc/new can't be written: Not a directory (os error 20)");
    assert_eq!(names(&folder), ["a", "b", "landings.asc", "link", "old.asc", "sub"]);
}

#[test]
fn permissions_are_kept() {
    let folder = stand("outlets-permissions");
    let old = folder.join("old.asc");
    symlink("old.asc", folder.join("link")).unwrap();
    for (mode, out) in [(0o600, "old.asc"), (0o664, "old.asc"), (0o640, "link"), (0o777, "link"), (0o444, "old.asc")] {
        fs::remove_file(&old).unwrap();
        fs::write(&old, "an older sheet").unwrap();
        fs::set_permissions(&old, Permissions::from_mode(mode)).unwrap();
        said(&folder, &format!("{WORDS} --out {out}"));
        assert_eq!(cells(&folder, "old.asc"), "0 1 2");
        assert_eq!(permissions(&old), mode, "{mode:o}");
    }

    // A new file is as the process makes any.
    fs::write(folder.join("any"), "").unwrap();
    said(&folder, &format!("{WORDS} --out new.asc"));
    assert_eq!(permissions(&folder.join("new.asc")), permissions(&folder.join("any")));
}

/// Only who may give files away can try it; others keep what they own.
#[test]
fn owner_and_group_are_kept() {
    let folder = stand("outlets-owner");
    let old = folder.join("old.asc");
    let own = fs::metadata(&old).unwrap();
    let (owner, group) =
        if chown(&old, Some(12_345), Some(54_321)).is_ok() { (12_345, 54_321) } else { (own.uid(), own.gid()) };
    said(&folder, &format!("{WORDS} --out old.asc"));
    assert_eq!(cells(&folder, "old.asc"), "0 1 2");
    let new = fs::metadata(&old).unwrap();
    assert_eq!((new.uid(), new.gid()), (owner, group));
    assert_ne!(new.ino(), own.ino(), "it is replaced as a whole");
}

#[test]
fn one_file_by_two_spellings() {
    let folder = stand("outlets-same");
    symlink("sub", folder.join("folder")).unwrap();
    symlink("sub/x", folder.join("to-x")).unwrap();
    symlink("to-x", folder.join("to-to-x")).unwrap();
    fs::hard_link(folder.join("old.asc"), folder.join("hard.asc")).unwrap();
    let whole = folder.join("sub/x");
    let before = names(&folder);
    for (out, picture) in [
        ("new", "sub/../new"),
        ("new", "./new"),
        ("sub/x", "folder/x"),
        ("folder/../new", "new"),
        ("to-x", "sub/x"),
        ("folder/x", "to-to-x"),
        ("to-to-x", "to-x"),
        ("sub/x", whole.to_str().unwrap()),
        ("old.asc", "hard.asc"),
        ("old.asc", "sub/../hard.asc"),
    ] {
        let sentence = failure(&folder, &format!("{WORDS} --out {out} --picture {picture}"));
        assert_eq!(sentence, format!("--out {out} and --picture {picture} are the same file"));
    }
    assert_eq!(names(&folder), before);
    assert_eq!(names(&folder.join("sub")), [""; 0]);
    said(&folder, &format!("{WORDS} --out sub/new --picture new"));
}

#[test]
fn an_input_by_another_spelling() {
    let folder = stand("outlets-input");
    symlink("sub", folder.join("folder")).unwrap();
    symlink("landings.asc", folder.join("link")).unwrap();
    fs::hard_link(folder.join("landings.asc"), folder.join("hard.asc")).unwrap();
    let before = fs::read(folder.join("landings.asc")).unwrap();
    for output in ["./landings.asc", "sub/../landings.asc", "folder/../landings.asc", "link", "hard.asc"] {
        for option in ["out", "picture"] {
            let sentence = failure(&folder, &format!("{WORDS} --{option} {output}"));
            assert_eq!(sentence, format!("{output} is the file of --targets, and is not written over"));
        }
    }
    let sentence = failure(&folder, "case pack distance --targets link --out landings.asc");
    assert_eq!(sentence, "landings.asc is the file of --targets, and is not written over");
    assert_eq!(fs::read(folder.join("landings.asc")).unwrap(), before);
}
