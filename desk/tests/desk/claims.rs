//! The new file beside the one that is kept: two desks, a desk that was killed, and what is in the
//! way.

use std::fs;
use std::os::unix::fs::symlink;
use std::path::Path;

use crate::support::{after, bytes, desk, failed, listed, Folder, Talk, LISTING, SCRIPT};

const NEW: &str = ".node.desk-new";

/// A desk that has played the script and waits for more.
fn waiting(file: &Path) -> Talk {
    let mut talk = Talk::begin(file);
    talk.plays();
    talk
}

/// The first desk has a file that is there already, or one that isn't yet.
fn two_at_once(folder: &Folder, before: Option<&[u8]>) {
    let file = folder.path("node");
    symlink("node", folder.path("link")).unwrap();
    let first = waiting(&file);
    for name in ["node", "link"] {
        let second = desk(&folder.path(name), "S,8\n");
        failed(&second, "another desk is at work on it");
        assert!(second.stdout.is_empty());
        assert_eq!(fs::read(&file).ok().as_deref(), before);
    }
    assert!(first.end().status.success());
    assert_eq!(fs::read(&file).unwrap(), bytes(&after(SCRIPT)));
    assert!(desk(&file, "S,8\n").status.success());
    let memory = bytes(&after(&format!("{SCRIPT}S,8\n")));
    assert_eq!(fs::read(&file).unwrap(), memory);
    assert_eq!(folder.names(), ["link", "node"]);
}

#[test]
fn two_at_a_file() {
    let folder = Folder::new("two_at_a_file");
    let before = bytes(&after(""));
    fs::write(folder.path("node"), &before).unwrap();
    two_at_once(&folder, Some(&before));
}

#[test]
fn two_at_no_file_yet() {
    two_at_once(&Folder::new("two_at_no_file_yet"), None);
}

/// Many at once: each is refused, or finds what the one before it left.
#[test]
fn many_at_a_file() {
    let folder = Folder::new("many_at_a_file");
    let file = folder.path("node");
    assert!(desk(&file, "S,1\n").status.success());
    let played: usize = std::thread::scope(|scope| {
        let threads: Vec<_> = (0..4)
            .map(|_| scope.spawn(|| (0..25).filter(|_| played(&desk(&file, "A,1,7\n"))).count()))
            .collect();
        threads
            .into_iter()
            .map(|thread| thread.join().unwrap())
            .sum()
    });
    assert!(played > 0);
    // As many messages wait as arrivals were accepted; the hardware queue takes 16.
    let memory = fs::read(&file).unwrap();
    assert_eq!(usize::from(memory[8]), played.min(16));
    assert_eq!(folder.names(), ["node"]);
}

fn played(output: &std::process::Output) -> bool {
    if !output.status.success() {
        failed(output, "another desk is at work on it");
    }
    output.status.success()
}

#[test]
fn killed_while_it_waits() {
    let folder = Folder::new("killed_while_it_waits");
    let file = folder.path("node");
    for before in [None, Some(bytes(&after("S,2\nA,2,9\n")))] {
        let mut talk = match &before {
            None => waiting(&file),
            Some(bytes) => {
                fs::write(&file, bytes).unwrap();
                Talk::begin(&file)
            }
        };
        talk.child.kill().unwrap();
        talk.child.wait().unwrap();
        assert_eq!(fs::read(&file).ok(), before);
        assert!(folder.path(NEW).exists());
    }
    // The next one takes what the killed one left.
    assert!(desk(&file, "S,8\n").status.success());
    let memory = bytes(&after("S,2\nA,2,9\nS,8\n"));
    assert_eq!(fs::read(&file).unwrap(), memory);
    assert_eq!(folder.names(), ["node"]);
}

#[test]
fn what_a_killed_one_wrote_is_written_over() {
    let folder = Folder::new("written_over");
    fs::write(folder.path(NEW), vec![1; 20_001]).unwrap();
    listed(&desk(&folder.path("node"), SCRIPT), LISTING);
    assert_eq!(
        fs::read(folder.path("node")).unwrap(),
        bytes(&after(SCRIPT))
    );
    assert_eq!(folder.names(), ["node"]);
}

#[test]
fn a_link_in_the_way_is_not_followed() {
    let folder = Folder::new("a_link_in_the_way");
    fs::write(folder.path("other"), "kept").unwrap();
    for target in ["other", "nothing"] {
        symlink(target, folder.path(NEW)).unwrap();
        failed(&desk(&folder.path("node"), SCRIPT), "is in the way");
        assert_eq!(fs::read(folder.path("other")).unwrap(), b"kept");
        assert_eq!(folder.names(), [NEW, "other"]);
        fs::remove_file(folder.path(NEW)).unwrap();
    }
    fs::hard_link(folder.path("other"), folder.path(NEW)).unwrap();
    failed(&desk(&folder.path("node"), SCRIPT), "is in the way");
    assert_eq!(fs::read(folder.path("other")).unwrap(), b"kept");
    fs::remove_file(folder.path(NEW)).unwrap();
    fs::create_dir(folder.path(NEW)).unwrap();
    failed(&desk(&folder.path("node"), SCRIPT), "is in the way");
    assert_eq!(folder.names(), [NEW, "other"]);
}

/// Then a second desk may be at the same file, and the first must not take what that one made.
#[test]
fn a_new_file_tidied_away() {
    let folder = Folder::new("a_new_file_tidied_away");
    let file = folder.path("node");
    let before = bytes(&after("S,2\n"));
    fs::write(&file, &before).unwrap();
    for also_second in [false, true] {
        let mut first = Talk::begin(&file);
        fs::remove_file(folder.path(NEW)).unwrap();
        let second = also_second.then(|| Talk::begin(&file));
        first.say(b"S,3\n");
        failed(&first.end(), "desk-new is gone");
        assert_eq!(fs::read(&file).unwrap(), before);
        if let Some(second) = second {
            assert!(second.end().status.success());
        }
        assert_eq!(fs::read(&file).unwrap(), before);
        assert_eq!(folder.names(), ["node"]);
    }
}
