//! The file: made, gone on with, left alone, and no node.

use std::fs;
use std::os::unix::fs::{MetadataExt, PermissionsExt};

use fugu::SIZE;

use crate::support::{after, bytes, desk, desk_with, listed, told, Folder, LISTING, SCRIPT};

const HEADER: &str = "line,answer,value,trap,upcall,moved\n";

#[test]
fn made_by_power_on() {
    let folder = Folder::new("made_by_power_on");
    listed(&desk(&folder.path("node"), ""), HEADER);
    assert_eq!(fs::read(folder.path("node")).unwrap(), bytes(&after("")));
    assert_eq!(folder.names(), ["node"]);
}

#[test]
fn gone_on_with() {
    let folder = Folder::new("gone_on_with");
    listed(&desk(&folder.path("node"), SCRIPT), LISTING);
    let memory = fs::read(folder.path("node")).unwrap();
    assert_eq!(memory, bytes(&after(SCRIPT)));
    let listing = format!("{HEADER}1,0,7,0,0,0\n2,0,0,1,0,0\n");
    listed(&desk(&folder.path("node"), "E,0\nD\n"), &listing);
    let memory = fs::read(folder.path("node")).unwrap();
    assert_eq!(memory, bytes(&after(&format!("{SCRIPT}E,0\nD\n"))));
    assert_eq!(folder.names(), ["node"]);
}

/// Of a message that was disposed of the file holds no word.
#[test]
fn a_message_disposed_of_is_gone() {
    let folder = Folder::new("a_message_disposed_of");
    let file = folder.path("node");
    let word: u32 = 0xdead_beef;
    let holds = || {
        let memory = fs::read(&file).unwrap();
        let mut words = memory.chunks_exact(4);
        words.any(|bytes| bytes == word.to_le_bytes())
    };
    desk(&file, format!("S,1\nA,1,{word}\nT,256\n"));
    assert!(holds());
    desk(&file, "D\n");
    assert!(!holds());
}

#[test]
fn left_alone_where_nothing_changed() {
    let folder = Folder::new("left_alone");
    let file = folder.path("node");
    fs::write(&file, bytes(&after("S,1\n"))).unwrap();
    let before = fs::metadata(&file).unwrap();
    // Both change the memory, and the second changes it back.
    listed(
        &desk(&file, "S,2\nS,1\n"),
        &format!("{HEADER}1,0,0,0,0,0\n2,0,0,0,0,0\n"),
    );
    let behind = fs::metadata(&file).unwrap();
    assert_eq!(behind.ino(), before.ino());
    assert_eq!(behind.modified().unwrap(), before.modified().unwrap());
    assert_eq!(folder.names(), ["node"]);
}

#[test]
fn the_mode_is_kept() {
    let folder = Folder::new("the_mode_is_kept");
    let file = folder.path("node");
    for mode in [0o600, 0o640, 0o666] {
        fs::write(&file, bytes(&after(""))).unwrap();
        fs::set_permissions(&file, fs::Permissions::from_mode(mode)).unwrap();
        listed(&desk(&file, SCRIPT), LISTING);
        assert_eq!(fs::read(&file).unwrap(), bytes(&after(SCRIPT)));
        assert_eq!(fs::metadata(&file).unwrap().mode() & 0o7777, mode);
    }
}

#[test]
fn words_behind_a_node_are_kept() {
    let folder = Folder::new("words_behind");
    let file = folder.path("node");
    for words in [1, 100, 1_000_000] {
        let tail: Vec<u32> = (0..words)
            .map(|word: u32| word.wrapping_mul(7919))
            .collect();
        fs::write(&file, bytes(&[after(""), tail.clone()].concat())).unwrap();
        listed(&desk(&file, SCRIPT), LISTING);
        assert!(fs::read(&file).unwrap() == bytes(&[after(SCRIPT), tail].concat()));
    }
}

/// Each line is answered 1, one line on standard error says which clause fails, and the file stays as it is.
fn no_node(folder: &Folder, before: &[u8], clause: &str) {
    let file = folder.path("node");
    fs::write(&file, before).unwrap();
    let known = fs::metadata(&file).unwrap();
    let refused = "1,1,0,0,0,0\n2,1,0,0,0,0\n3,1,0,0,0,0\n4,1,0,0,0,0\n";
    for options in [&[][..], &["--keep"]] {
        let ended = desk_with(options, &file, "S,1\nM\n\nQ");
        told(&ended, &format!("node is no node: {clause}"));
        assert_eq!(ended.status.code(), Some(3));
        assert_eq!(
            String::from_utf8_lossy(&ended.stdout),
            format!("{HEADER}{refused}")
        );
        assert!(fs::read(&file).unwrap() == before);
        assert_eq!(fs::metadata(&file).unwrap().ino(), known.ino());
        assert_eq!(folder.names(), ["node"]);
    }
}

#[test]
fn no_node_by_a_word() {
    let folder = Folder::new("no_node_by_a_word");
    let clause = "this does not hold: ";
    for (at, word, broken) in [
        (196, 2, "flags are 0 or 1 (word 196, atomic of group 1: 2)"),
        (0, 9, "running is 0 to 8 (word 0, the running group: 9)"),
        (
            164,
            2,
            "each frame stands once (word 164, place 0 of the free line: 2; and 1 more)",
        ),
        (1101, 1, "places behind the last message are 0 (word 1101, "),
        (1165, 7, "free frames are 0 (word 1165, "),
        (8003, 7, "free swap pages are 0 (word 8003, "),
    ] {
        let mut memory = after(SCRIPT);
        memory[at] = word;
        no_node(&folder, &bytes(&memory), &format!("{clause}{broken}"));
    }
    no_node(&folder, &vec![0; 4 * SIZE], "this does not hold: each ");
}

#[test]
fn no_node_by_its_length() {
    let folder = Folder::new("no_node_by_its_length");
    let whole = bytes(&after(SCRIPT));
    let longer = [&whole[..], &[0; 4001]].concat();
    for length in [0, 1, 3, 4, whole.len() - 4, whole.len() - 1] {
        let short = format!("memory too short: {} words, a node has 8104\n", length / 4);
        no_node(&folder, &whole[..length], &short);
    }
    for length in [1, 3, 4001].map(|more| whole.len() + more) {
        let ragged = format!("the last word is cut short: {length} bytes\n");
        no_node(&folder, &longer[..length], &ragged);
    }
}
