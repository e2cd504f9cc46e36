//! Where the file stands: links, folders, and what is no file.

use std::fs;
use std::os::unix::fs::symlink;
use std::path::Path;

use crate::support::{after, bytes, desk, failed, listed, Folder, LISTING, SCRIPT};

#[test]
fn a_link_stays_and_its_file_changes() {
    let folder = Folder::new("a_link_stays");
    fs::create_dir(folder.path("far")).unwrap();
    fs::write(folder.path("far/node"), bytes(&after(""))).unwrap();
    symlink("far/node", folder.path("near")).unwrap();
    symlink("near", folder.path("nearer")).unwrap();
    listed(&desk(&folder.path("nearer"), SCRIPT), LISTING);
    assert_eq!(
        fs::read_link(folder.path("nearer")).unwrap(),
        Path::new("near")
    );
    assert_eq!(
        fs::read_link(folder.path("near")).unwrap(),
        Path::new("far/node")
    );
    assert_eq!(
        fs::read(folder.path("far/node")).unwrap(),
        bytes(&after(SCRIPT))
    );
    assert_eq!(folder.names(), ["far", "near", "nearer"]);
}

#[test]
fn a_link_to_no_file_yet() {
    let folder = Folder::new("a_link_to_no_file_yet");
    fs::create_dir(folder.path("far")).unwrap();
    symlink("far/near", folder.path("nearer")).unwrap();
    symlink("node", folder.path("far/near")).unwrap();
    listed(&desk(&folder.path("nearer"), SCRIPT), LISTING);
    assert!(fs::symlink_metadata(folder.path("far/near"))
        .unwrap()
        .is_symlink());
    assert_eq!(
        fs::read(folder.path("far/node")).unwrap(),
        bytes(&after(SCRIPT))
    );
}

#[test]
fn links_in_a_circle() {
    let folder = Folder::new("links_in_a_circle");
    symlink("there", folder.path("here")).unwrap();
    symlink("here", folder.path("there")).unwrap();
    failed(&desk(&folder.path("here"), SCRIPT), "symbolic links");
    assert_eq!(folder.names(), ["here", "there"]);
}

#[test]
fn a_folder_and_a_device() {
    let folder = Folder::new("a_folder_and_a_device");
    fs::create_dir(folder.path("node")).unwrap();
    failed(&desk(&folder.path("node"), SCRIPT), "is a directory");
    failed(&desk(&folder.path("node/.."), SCRIPT), "is a directory");
    failed(&desk(Path::new("/"), SCRIPT), "is a directory");
    failed(&desk(Path::new("/dev/null"), SCRIPT), "no regular file");
    assert_eq!(folder.names(), ["node"]);
}

#[test]
fn no_such_folder() {
    let folder = Folder::new("no_such_folder");
    fs::write(folder.path("node"), "").unwrap();
    failed(
        &desk(&folder.path("none/node"), SCRIPT),
        "no_such_folder/none: No such file",
    );
    failed(&desk(&folder.path("node/node"), SCRIPT), "Not a directory");
    failed(
        &desk(Path::new(""), SCRIPT),
        "the name of the file is empty",
    );
    assert_eq!(folder.names(), ["node"]);
}

/// The new file beside it has 10 bytes more.
#[test]
fn a_name_too_long() {
    let folder = Folder::new("a_name_too_long");
    for length in [246, 247, 250, 255] {
        let file = folder.path(&"n".repeat(length));
        failed(&desk(&file, SCRIPT), "n: the name is too long: ");
    }
    failed(&desk(&folder.path(&"n".repeat(256)), SCRIPT), "too long");
    assert!(folder.names().is_empty());
    listed(&desk(&folder.path(&"n".repeat(245)), SCRIPT), LISTING);
}

/// Under the other it would stay as it is.
#[test]
fn two_names_of_one_file() {
    let folder = Folder::new("two_names_of_one_file");
    let before = bytes(&after(""));
    fs::write(folder.path("node"), &before).unwrap();
    fs::hard_link(folder.path("node"), folder.path("other")).unwrap();
    for name in ["node", "other"] {
        let refused = desk(&folder.path(name), SCRIPT);
        failed(&refused, "has 2 names (hard links)");
        assert!(refused.stdout.is_empty());
        assert_eq!(fs::read(folder.path(name)).unwrap(), before);
    }
    assert_eq!(folder.names(), ["node", "other"]);
    fs::remove_file(folder.path("other")).unwrap();
    listed(&desk(&folder.path("node"), SCRIPT), LISTING);
}
