//! What others do to the file while a desk has it: it is left to them, and what it would have got stands
//! beside it.

use std::fs::{self, File};
use std::os::unix::fs::{symlink, MetadataExt, PermissionsExt};
use std::path::Path;

use crate::support::{after, bytes, command, failed, Folder, Talk, SCRIPT};

const NEW: &str = ".node.desk-new";

/// A desk plays the script on a file, or on none yet, and before it ends this is done to it.
fn meanwhile(test: &str, before: Option<&[u8]>, what: &str, done: impl Fn(&Folder, &Path)) {
    for keep in [false, true] {
        let folder = Folder::new(test);
        let file = folder.path("node");
        if let Some(before) = before {
            fs::write(&file, before).unwrap();
        }
        let options = if keep { &["--keep"][..] } else { &[] };
        let mut talk = Talk::by(&mut command(options, &file));
        talk.plays();
        done(&folder, &file);
        let left = fs::read(&file).ok();
        failed(&talk.end(), &format!("node {what} while the desk was open"));
        assert_eq!(fs::read(&file).ok(), left);
        assert_eq!(
            fs::read(folder.path("node.desk-1")).unwrap(),
            bytes(&after(SCRIPT))
        );
        assert!(!folder.path(NEW).exists());
    }
}

fn node() -> Vec<u8> {
    bytes(&after(""))
}

#[test]
fn written_in_place() {
    let other = bytes(&after("S,2\n"));
    meanwhile(
        "written_in_place",
        Some(&node()),
        "was changed",
        |_, file| {
            fs::write(file, &other).unwrap();
        },
    );
}

/// Its times are set back, but for the one that can't be.
#[test]
fn written_with_its_old_time() {
    let other = bytes(&after("S,2\n"));
    meanwhile("its_old_time", Some(&node()), "was changed", |_, file| {
        let time = fs::metadata(file).unwrap().modified().unwrap();
        fs::write(file, &other).unwrap();
        File::options()
            .write(true)
            .open(file)
            .unwrap()
            .set_modified(time)
            .unwrap();
        assert_eq!(fs::metadata(file).unwrap().modified().unwrap(), time);
    });
}

/// Also where that leaves the bytes as they were.
#[test]
fn another_mode() {
    meanwhile("another_mode", Some(&node()), "was changed", |_, file| {
        fs::set_permissions(file, fs::Permissions::from_mode(0o600)).unwrap();
    });
}

#[test]
fn a_second_name() {
    meanwhile(
        "a_second_name",
        Some(&node()),
        "was changed",
        |folder, file| {
            fs::hard_link(file, folder.path("other")).unwrap();
        },
    );
}

#[test]
fn cut_short() {
    meanwhile("cut_short", Some(&node()), "was changed", |_, file| {
        fs::write(file, "").unwrap();
    });
}

#[test]
fn replaced() {
    meanwhile("replaced", Some(&node()), "was replaced", |folder, file| {
        // With the same bytes, too.
        fs::write(folder.path("other"), node()).unwrap();
        fs::rename(folder.path("other"), file).unwrap();
    });
}

#[test]
fn replaced_by_a_link() {
    meanwhile(
        "by_a_link",
        Some(&node()),
        "was replaced",
        |folder, file| {
            fs::rename(file, folder.path("other")).unwrap();
            symlink("other", file).unwrap();
        },
    );
}

#[test]
fn removed() {
    meanwhile("removed", Some(&node()), "was removed", |_, file| {
        fs::remove_file(file).unwrap();
    });
}

#[test]
fn appeared() {
    let other = bytes(&after("S,2\n"));
    meanwhile("appeared", None, "appeared", |_, file| {
        fs::write(file, &other).unwrap();
    });
}

/// Nothing would be written, but the file has not the memory after the script either.
#[test]
fn also_where_the_script_changed_nothing() {
    let folder = Folder::new("changed_nothing");
    let file = folder.path("node");
    fs::write(&file, node()).unwrap();
    let talk = Talk::begin(&file);
    fs::remove_file(&file).unwrap();
    failed(&talk.end(), "was removed");
    assert_eq!(folder.names(), ["node.desk-1"]);
    assert_eq!(fs::read(folder.path("node.desk-1")).unwrap(), node());
}

/// It is told which; nothing of that name is written over.
#[test]
fn the_first_name_that_is_free() {
    let folder = Folder::new("the_first_name");
    let file = folder.path("node");
    fs::write(&file, node()).unwrap();
    fs::set_permissions(&file, fs::Permissions::from_mode(0o640)).unwrap();
    fs::write(folder.path("node.desk-1"), "kept").unwrap();
    symlink("nothing", folder.path("node.desk-2")).unwrap();
    fs::create_dir(folder.path("node.desk-3")).unwrap();
    let mut talk = Talk::begin(&file);
    talk.plays();
    fs::remove_file(&file).unwrap();
    failed(&talk.end(), "/node.desk-4\n");
    assert_eq!(fs::read(folder.path("node.desk-1")).unwrap(), b"kept");
    let aside = folder.path("node.desk-4");
    assert_eq!(fs::read(&aside).unwrap(), bytes(&after(SCRIPT)));
    assert_eq!(fs::metadata(&aside).unwrap().mode() & 0o777, 0o640);
    let names = ["node.desk-1", "node.desk-2", "node.desk-3", "node.desk-4"];
    assert_eq!(folder.names(), names);
}

/// The words behind the node come along, those of now.
#[test]
fn with_what_stands_behind() {
    let folder = Folder::new("with_what_stands_behind");
    let file = folder.path("node");
    fs::write(&file, [&node()[..], &[1; 400]].concat()).unwrap();
    let mut talk = Talk::begin(&file);
    talk.plays();
    fs::remove_file(&file).unwrap();
    failed(&talk.end(), "was removed");
    let expected = [&bytes(&after(SCRIPT))[..], &[1; 400]].concat();
    assert!(fs::read(folder.path("node.desk-1")).unwrap() == expected);
}
