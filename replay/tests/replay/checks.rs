//! Pages that are not as they were written: none of them agrees.

use std::fs;

use judge::random::Random;
use replay::check::check;
use replay::page::{CAPTION, ROWS, RUN, TITLE};

use crate::support::{file, page_of, refused_in_a_line, replay, scripts, whole_case, written};

/// What is put in place of what in the page of the whole case, and how the message begins.
type Change = (&'static str, &'static str, &'static str);

const OF_LINES: &[Change] = &[
    (
        "|0,0,3,0,2|",
        "|0,0,3,0,1|",
        "line 6: the report is 0,0,3,0,2 and the page has 0,0,3,0,1",
    ),
    (
        " 313=1,1",
        " 313=1,2",
        "line 6: the change is 313=1,1 and the page has 313=1,2",
    ),
    (
        " 313=1,1",
        "",
        "line 6: the change is 313=1,1 and the page has 324=1",
    ),
    (
        "|6 at 6",
        "|5 at 6",
        "line 2: the reason is 6 at 6 and the page has 5 at 6",
    ),
    (
        "|6 at 6",
        "|",
        "line 2: the reason is 6 at 6 and the page has nothing",
    ),
    (
        "\n4|N|",
        "\n5|N|",
        "line 4: the number is 4 and the page has 5",
    ),
    (
        "\n5|E,0|",
        "\n5|E,1|",
        "line 5: the report is 9,0,0,0,0 and the page has 0,7,0,0,0",
    ),
    (
        "\n4|N|",
        "\n4|\\x4e|",
        "line 4: the text is N and the page has \\x5cx4e",
    ),
    ("\n4|N|", "\n4|\\x4|", "line 4 can't be read"),
    ("\n4|N|", "\n4|N|x|", "line 4 can't be read"),
    ("|6 at 6", "|6 at", "line 2 can't be read"),
    (
        "\n4|N|10,0,0,0,0||\n",
        "\n",
        "the run has 12 lines, and says that they are 1 to 13 of 13",
    ),
    ("\nend\n", "\n", "the run is cut short"),
    ("\nend\n", "\nend\n\n", "the run is cut short"),
    ("\nend\n", "\r\nend\n", "line 13: the reason is nothing"),
];

const OF_THE_HEAD: &[Change] = &[
    (
        "fugu-replay 1\n",
        "fugu-replay 2\n",
        "the run is of another build: it has \"fugu-replay 2\", and this program \"fugu-replay 1\"",
    ),
    (
        "words 8104",
        "words 9000",
        "the run is of another build: it has \"words 9000\", and this program \"words 8104\"",
    ),
    (
        "places=16",
        "places=17",
        "the run is of another build: it has \"map frames=32 swap=64 page=8 groups=8 places=17",
    ),
    (
        "title a script\n",
        "",
        "the run has no title where it belongs",
    ),
    (
        "title a script\n",
        "title b\n",
        "the title is b and the page has a script",
    ),
    ("title a script\n", "title \\x\n", "the title can't be read"),
    ("begin power-on", "begin no-node", "the start is a node"),
    (
        "begin power-on",
        "begin node",
        "line 2: the reason is nothing and the page has 6 at 6",
    ),
    (
        "begin power-on",
        "begin",
        "the run has no begin where it belongs",
    ),
    (
        "newline yes",
        "newline no",
        "the caption is Lines 1 to 13 of 13, played from power-on; the last",
    ),
    (
        "newline yes",
        "newline maybe",
        "the run has none of yes, no",
    ),
    ("start 3=32", "start 3=31", "the start is not power-on"),
    ("start 3=32", "start 3=032", "the run is start 3=32 165=1"),
    ("start 3=32", "start 3=32  ", "the start can't be read"),
    ("start 3=32", "start 9999=1", "the start can't be read"),
    (
        "start 3=32",
        "start 3=4294967296",
        "the start can't be read",
    ),
    (
        "start 3=32",
        "start 18446744073709551615=1,1",
        "the start can't be read",
    ),
    ("memory 8104", "memory 8103", "the start is not power-on"),
    (
        "memory 8104",
        "memory 18446744073709551615",
        "the memory is no number of words",
    ),
    (
        "lines 1 13 13",
        "lines 1 13 14",
        "the caption is Lines 1 to 13 of 14, played from power-on and the page",
    ),
    (
        "lines 1 13 13",
        "lines 1 13 12",
        "the run has 13 lines, and says that they are 1 to 13 of 12",
    ),
    (
        "lines 1 13 13",
        "lines 0 12 13",
        "the run has 13 lines, and says that they are 0 to 12 of 13",
    ),
    (
        "lines 1 13 13",
        "lines 18446744073709551615 12 13",
        "the run has 13 lines, and says that they are 184",
    ),
    (
        "lines 1 13 13",
        "lines 1 13",
        "the lines shown are not three numbers",
    ),
    (
        "lines 1 13 13",
        "lines 2 14 14",
        "line 2: the number is 2 and the page has 1",
    ),
];

const OF_THE_PAGE: &[Change] = &[
    (
        "<td>10</td>",
        "<td>11</td>",
        "line 4: its row of the listing is not what the run says",
    ),
    (
        "</tbody>",
        "<tr></tr></tbody>",
        "the listing has more rows than the run has lines",
    ),
    ("<tbody id=\"rows\">", "<tbody>", "there is no listing"),
    (
        "<tbody id=\"rows\">",
        "<tbody id=\"rows\">\n</tbody><tbody id=\"rows\">",
        "there is more than one listing",
    ),
    (
        "<script type=\"text/plain\" id=\"run\">",
        "<script id=\"run\">",
        "no replay: there is no run",
    ),
    (
        "\ncode ",
        "\ncode 1",
        "the code has not the length and the sum that it names",
    ),
    (
        "</html>",
        "",
        "no replay, or one cut short: it does not end with </html>",
    ),
];

fn differs_in(changes: &[Change]) {
    let page = page_of(&whole_case());
    for (from, to, message) in changes {
        assert!(page.contains(from), "{from}");
        let told = check(page.replacen(from, to, 1).as_bytes());
        let told = told.expect_err(message);
        assert!(told.starts_with(message), "{told}, not {message}");
    }
}

#[test]
fn a_line_that_differs() {
    differs_in(OF_LINES);
}

#[test]
fn a_head_that_differs() {
    differs_in(OF_THE_HEAD);
}

#[test]
fn a_page_that_differs() {
    differs_in(OF_THE_PAGE);
}

/// What draws the page is no part of what is held against the calls: it is told of.
#[test]
fn a_page_that_others_draw() {
    let page = page_of(&whole_case()).replacen("<main>", "<main class=\"other\">", 1);
    assert_eq!(
        check(page.as_bytes()).unwrap(),
        "13 lines agree; what draws it, or the code in it, is not what this program writes\n"
    );
}

#[test]
fn a_part_of_a_script_agrees_as_far_as_it_goes() {
    for (arguments, found) in [
        (
            ["--from", "5"],
            "9 lines agree; the page has lines 5 to 13 of 13: what came before is taken as it stands, and the \
             reasons are not checked\n",
        ),
        (
            ["--to", "5"],
            "5 lines agree; the page has lines 1 to 5 of 13: the reasons are not checked\n",
        ),
        (["--to", "13"], "13 lines agree\n"),
    ] {
        let page = written(&replay(&arguments, &whole_case()));
        assert_eq!(check(page.as_bytes()).unwrap(), found);
    }
    let page = written(&replay(&["--from", "5"], &whole_case()));
    let page = page.replacen("start 0=1 ", "start 0=9 ", 1);
    assert_eq!(check(page.as_bytes()).unwrap_err(), "the start is no node");
}

/// The program's own words and exit status.
#[test]
fn as_it_is_called() {
    let path = file("checked.html");
    let name = path.to_str().unwrap();
    let page = page_of(&whole_case());
    fs::write(&path, &page).unwrap();
    assert_eq!(
        written(&replay(&["--check", name], b"")),
        "13 lines agree\n"
    );
    fs::write(&path, page.replacen("|0,7,0,0,0|", "|0,8,0,0,0|", 1)).unwrap();
    let message = format!("{name}: line 5: the report is 0,7,0,0,0 and the page has 0,8,0,0,0");
    refused_in_a_line(&replay(&["--check", name], b""), 1, &message);
    fs::write(&path, b"\xff").unwrap();
    let message = format!("{name}: no replay: it is no text in UTF-8");
    refused_in_a_line(&replay(&["--check", name], b""), 1, &message);
    refused_in_a_line(
        &replay(&["--check", "/dev/zero"], b""),
        1,
        "/dev/zero: it has more than 335,544,320 bytes",
    );
}

#[test]
fn any_page_that_is_cut() {
    let page = page_of(&whole_case());
    let whole = page.trim_end().len();
    for length in 0..whole {
        assert!(check(&page.as_bytes()[..length]).is_err(), "{length}");
    }
    assert_eq!(check(&page.as_bytes()[..whole]).unwrap().lines().count(), 1);
}

/// A byte changed in what the check holds: title, caption, rows, run and code.
#[test]
fn any_byte_that_is_changed() {
    let page = page_of(&whole_case());
    let mut random = Random::new(27);
    for part in [RUN, ROWS, TITLE, CAPTION] {
        let text = part.of(&page).unwrap();
        let from = text.as_ptr() as usize - page.as_ptr() as usize;
        for place in from..from + text.len() {
            let mut changed = page.clone().into_bytes();
            changed[place] ^= random.between(1, 255) as u8;
            assert!(check(&changed).is_err(), "{place}");
            changed[place] = random.pick(b"0123456789|=, ");
            assert!(
                changed == page.as_bytes() || check(&changed).is_err(),
                "{place}"
            );
        }
    }
}

/// Any bytes, and any pieces of pages in any order: an answer, and an end.
#[test]
fn any_file_whatever() {
    let mut random = Random::new(1998);
    let pages: Vec<String> = scripts()
        .iter()
        .take(20)
        .map(|script| page_of(&script.bytes))
        .collect();
    for _ in 0..2000 {
        let length = random.between(0, 400);
        let bytes: Vec<u8> = (0..length).map(|_| random.draw() as u8).collect();
        assert!(check(&bytes).is_err());
    }
    for _ in 0..2000 {
        let mut pieces = Vec::new();
        for _ in 0..random.between(1, 4) {
            let page = random.pick(&pages.iter().collect::<Vec<_>>()).as_bytes();
            let from = random.between(0, page.len() as u64) as usize;
            let to = random.between(from as u64, page.len() as u64) as usize;
            pieces.extend_from_slice(&page[from..to]);
        }
        let _ = check(&pieces);
    }
}
