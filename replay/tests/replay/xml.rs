//! A small reader of XML: enough to tell that a page is well-formed, and which attributes it has.

/// An attribute of some element.
#[derive(Debug)]
pub struct Attribute {
    pub name: String,
    pub value: String,
}

/// The attributes of a text that is well-formed; else why it is not, and where.
pub fn attributes(text: &str) -> Result<Vec<Attribute>, String> {
    let mut reader = Reader {
        rest: text,
        open: Vec::new(),
        found: Vec::new(),
    };
    reader.read().map_err(|told| {
        let line = text[..text.len() - reader.rest.len()].lines().count();
        format!("line {line}: {told}")
    })?;
    Ok(reader.found)
}

struct Reader<'a> {
    rest: &'a str,
    /// The elements that have begun.
    open: Vec<&'a str>,
    found: Vec<Attribute>,
}

impl<'a> Reader<'a> {
    fn read(&mut self) -> Result<(), String> {
        if !self.rest.chars().all(is_character) {
            return Err("a character that no XML has".to_string());
        }
        self.taken("<!DOCTYPE html>").ok_or("no DOCTYPE")?;
        while !self.rest.is_empty() {
            self.text()?;
            self.markup()?;
        }
        match self.open.last() {
            Some(name) => Err(format!("{name} is open")),
            None => Ok(()),
        }
    }

    /// What stands before the next tag; outside of all elements that is white space.
    fn text(&mut self) -> Result<(), String> {
        let text = self.until(|sign| sign == '<');
        if self.open.is_empty() && !text.trim().is_empty() {
            return Err(format!("text outside: {text}"));
        }
        if text.contains("]]>") {
            return Err("]]> outside of CDATA".to_string());
        }
        references(text)
    }

    fn markup(&mut self) -> Result<(), String> {
        if self.rest.is_empty() {
            Ok(())
        } else if self.taken("<![CDATA[").is_some() {
            self.behind("]]>").map(drop)
        } else if self.taken("<!--").is_some() {
            let comment = self.behind("-->")?;
            (!comment.contains("--"))
                .then_some(())
                .ok_or("-- in a comment".to_string())
        } else if self.taken("</").is_some() {
            let name = self.behind(">")?.trim_end();
            let open = self.open.pop();
            (open == Some(name))
                .then_some(())
                .ok_or(format!("{name} ends in {open:?}"))
        } else {
            self.taken("<").ok_or("no tag")?;
            self.begin()
        }
    }

    /// A tag that begins an element: its name, and its attributes.
    fn begin(&mut self) -> Result<(), String> {
        let name = self.name()?;
        let first = self.found.len();
        loop {
            let blank = self.rest.starts_with(char::is_whitespace);
            self.rest = self.rest.trim_start();
            if self.taken("/>").is_some() {
                return Ok(());
            }
            if self.taken(">").is_some() {
                self.open.push(name);
                return Ok(());
            }
            if !blank {
                return Err(format!("no blank before an attribute of {name}"));
            }
            let attribute = self.attribute(name)?;
            if self.found[first..]
                .iter()
                .any(|known| known.name == attribute.name)
            {
                return Err(format!("{name} has {} twice", attribute.name));
            }
            self.found.push(attribute);
        }
    }

    fn attribute(&mut self, element: &str) -> Result<Attribute, String> {
        let name = self.name()?;
        self.taken("=\"")
            .ok_or(format!("{name} of {element} has no value in quotes"))?;
        let value = self.behind("\"")?;
        if value.contains('<') {
            return Err(format!("< in {name} of {element}"));
        }
        references(value)?;
        Ok(Attribute {
            name: name.to_string(),
            value: value.to_string(),
        })
    }

    fn name(&mut self) -> Result<&'a str, String> {
        let ends = |sign: char| !(sign.is_ascii_alphanumeric() || matches!(sign, '-' | ':' | '_'));
        let name = self.until(ends);
        (!name.is_empty())
            .then_some(name)
            .ok_or("no name".to_string())
    }

    fn taken(&mut self, text: &str) -> Option<()> {
        self.rest = self.rest.strip_prefix(text)?;
        Some(())
    }

    fn until(&mut self, ends: impl FnMut(char) -> bool) -> &'a str {
        let (text, rest) = self
            .rest
            .split_at(self.rest.find(ends).unwrap_or(self.rest.len()));
        self.rest = rest;
        text
    }

    fn behind(&mut self, end: &str) -> Result<&'a str, String> {
        let (text, rest) = self.rest.split_once(end).ok_or(format!("no {end}"))?;
        self.rest = rest;
        Ok(text)
    }
}

/// "any Unicode character, excluding the surrogate blocks, FFFE, and FFFF" and most controls.
fn is_character(sign: char) -> bool {
    matches!(sign, '\t' | '\n' | '\r' | ' '..='\u{fffd}' | '\u{10000}'..)
}

/// Each ampersand begins one of XML's own entities or a number.
fn references(text: &str) -> Result<(), String> {
    for from in text.split('&').skip(1) {
        let (name, _) = from.split_once(';').ok_or("an & alone")?;
        let number = name
            .strip_prefix('#')
            .is_some_and(|digits| digits.parse::<u32>().is_ok());
        if !number && !["amp", "lt", "gt", "quot", "apos"].contains(&name) {
            return Err(format!("&{name};"));
        }
    }
    Ok(())
}

#[test]
fn what_is_not_well_formed() {
    attributes("<!DOCTYPE html>\n<a b=\"c\"><!-- d --><e />&amp;&#32;<![CDATA[<&]]></a>\n")
        .unwrap();
    for text in [
        "<a></a>",
        "<!DOCTYPE html><a>",
        "<!DOCTYPE html><a></b>",
        "<!DOCTYPE html><a b></a>",
        "<!DOCTYPE html><a b=c></a>",
        "<!DOCTYPE html><a b=\"1\" b=\"2\"></a>",
        "<!DOCTYPE html><a>&</a>",
        "<!DOCTYPE html><a>&nbsp;</a>",
        "<!DOCTYPE html><a>\u{1}</a>",
        "<!DOCTYPE html><a b=\"<\"></a>",
        "<!DOCTYPE html><a b=\"1\"c=\"2\"></a>",
        "<!DOCTYPE html>text<a></a>",
        "<!DOCTYPE html><a>]]></a>",
    ] {
        assert!(attributes(text).is_err(), "{text}");
    }
}
