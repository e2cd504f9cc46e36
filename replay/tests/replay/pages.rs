//! The page as a document: well-formed, every id once, every reference met, nothing from elsewhere.

use std::collections::BTreeSet;

use replay::check::check;
use replay::page::TITLE;

use crate::support::{page_of, replay, scripts, whole_case, written};
use crate::xml::{attributes, Attribute};

/// The attributes that name ids, some of them several.
const NAMING: [&str; 5] = [
    "for",
    "aria-labelledby",
    "aria-describedby",
    "aria-controls",
    "aria-owns",
];

/// What a page may have of addresses: names of its own languages, and no address of a file.
const NAMES: [&str; 3] = [
    "http-equiv",
    "http://www.w3.org/1999/xhtml",
    "http://www.w3.org/2000/svg",
];

fn ids(attributes: &[Attribute]) -> BTreeSet<&str> {
    let mut ids = BTreeSet::new();
    for id in attributes.iter().filter(|attribute| attribute.name == "id") {
        assert!(ids.insert(id.value.as_str()), "{id:?} stands twice");
    }
    ids
}

/// The ids that a page names.
fn references<'a>(page: &'a str, attributes: &'a [Attribute]) -> Vec<&'a str> {
    let mut named: Vec<&str> = Vec::new();
    for attribute in attributes {
        if NAMING.contains(&attribute.name.as_str()) {
            named.extend(attribute.value.split_whitespace());
        }
        if attribute.name.ends_with("href") {
            named.push(
                attribute
                    .value
                    .strip_prefix('#')
                    .expect("a link leads within the page"),
            );
        }
    }
    // What a script draws later is looked at in a browser.
    let (_, style) = page.split_once("<style>").expect("a page has a style");
    let (style, _) = style.split_once("</style>").expect("it ends");
    let values = attributes.iter().map(|attribute| attribute.value.as_str());
    for text in values.chain([style]) {
        let urls = text.split("url(#").skip(1);
        named.extend(urls.map(|from| from.split(')').next().unwrap_or_default()));
    }
    named
}

fn is_a_page(name: &str, page: &str) {
    let attributes = attributes(page).unwrap_or_else(|told| panic!("{name}: {told}"));
    let ids = ids(&attributes);
    for named in references(page, &attributes) {
        assert!(ids.contains(named), "{name}: there is no {named}");
    }
    for from in page.match_indices("http").map(|(at, _)| &page[at..]) {
        let known = NAMES.iter().any(|known| from.starts_with(known));
        assert!(known, "{name}: {}", from.lines().next().unwrap_or_default());
    }
    for outside in ["src=", "@import", "url(http", "url(//", "<link", "<base"] {
        assert!(!page.contains(outside), "{name}: {outside}");
    }
}

#[test]
fn of_every_script() {
    for script in scripts() {
        let page = page_of(&script.bytes);
        is_a_page(&script.name, &page);
        let lines = script.listing.iter().filter(|&&byte| byte == b'\n').count() - 1;
        let found = check(page.as_bytes()).unwrap_or_else(|told| panic!("{}: {told}", script.name));
        let expected = match lines {
            1 => "1 line agrees\n".to_string(),
            lines if lines < 1000 => format!("{lines} lines agree\n"),
            lines => format!("{},{:03} lines agree\n", lines / 1000, lines % 1000),
        };
        assert_eq!(found, expected, "{}", script.name);
    }
}

/// Each line has its row, and a link to it leads there.
#[test]
fn a_row_for_each_line() {
    let page = page_of(&whole_case());
    let attributes = attributes(&page).unwrap();
    let ids = ids(&attributes);
    for line in 1..=13 {
        assert!(ids.contains(format!("line={line}").as_str()));
    }
    let rows = page.split_once("<tbody id=\"rows\">\n").unwrap().1;
    let row = |line: usize, cells: &str| {
        let row = rows.lines().nth(line - 1).unwrap();
        assert_eq!(
            row,
            format!("<tr id=\"line={line}\"><td>{line}</td>{cells}</tr>")
        );
    };
    let zeros = "<td>0</td>".repeat(5);
    row(
        1,
        &format!("<td><code>S,1</code></td>{zeros}<td></td><td></td>"),
    );
    row(
        3,
        &format!(
            "<td><code>A,2,5,6</code></td>{zeros}<td></td><td><a href=\"#line=6\">6 at 6</a></td>"
        ),
    );
    row(
        13,
        "<td><code>L,3</code></td><td>0</td><td>1</td><td>0</td><td>0</td><td>0</td><td>3,2,9</td><td></td>",
    );
}

/// A reason that is named with a line that is not shown leads nowhere.
#[test]
fn a_reason_behind_what_is_shown() {
    let page = written(&replay(&["--to", "3"], &whole_case()));
    is_a_page("--to 3", &page);
    assert!(page.contains("<td>6 at 6</td></tr>"));
}

#[test]
fn the_same_bytes_each_time() {
    let script = whole_case();
    let once = written(&replay(&["--title", "whole case"], &script));
    assert_eq!(once, written(&replay(&["--title", "whole case"], &script)));
    assert_eq!(
        written(&replay(&["--empty"], b"")),
        written(&replay(&["--empty"], b"S,1\n"))
    );
}

#[test]
fn without_a_script() {
    let page = written(&replay(&["--empty"], b""));
    is_a_page("--empty", &page);
    assert_eq!(check(page.as_bytes()).unwrap(), "0 lines agree\n");
}

/// What would end a title, a block or a script, or run, is shown.
#[test]
fn markup_in_a_title_and_in_a_script() {
    let odd = "</title></h1></script><script>alert(1)</script><!-- ]]> &amp; {{run}} \" ' \\x3c é \u{202e}";
    let script = [
        odd.as_bytes(),
        b"\n\x00\xff\xfe\r\n<![CDATA[\n]]>\n&\n|||\n\\\n\\x0a\n{{rows}}\nend\n</html>\n",
        odd.as_bytes(),
    ];
    let page = written(&replay(&["--title", odd], &script.concat()));
    is_a_page("odd", &page);
    assert!(!page.contains("alert(1)</script>"));
    assert_eq!(
        TITLE.of(&page),
        Ok("&lt;/title&gt;&lt;/h1&gt;&lt;/script&gt;&lt;script&gt;alert(1)&lt;/script&gt;&lt;!-- ]]&gt; \
            &amp;amp; {{run}} \" ' \\x5cx3c é \u{202e}")
    );
    assert!(page.contains("<td><code>\\x00\\xff\\xfe\\x0d</code></td>"));
    assert!(page.contains("<td><code>&lt;![CDATA[</code></td>"));
    assert_eq!(check(page.as_bytes()).unwrap(), "12 lines agree\n");
}
