//! A strict test for the XML that pictures have: one element with others and
//! text within, attributes in double quotes, and the five known entities.
//! Comments, declarations and all else are refused.

/// What is left to read, and the elements that are open.
struct Reader<'a> {
    rest: &'a str,
    open: Vec<&'a str>,
}

/// Whether a text is well-formed, and what is wrong with it.
pub fn check(text: &str) -> Result<(), String> {
    if let Some(bad) = text.chars().find(|c| c.is_control() && *c != '\n') {
        return Err(format!("{bad:?} is no letter"));
    }
    let mut reader = Reader {
        rest: text,
        open: Vec::new(),
    };
    reader.tag()?;
    while !reader.open.is_empty() {
        let (content, rest) = reader.until('<')?;
        check_text(content)?;
        reader.rest = rest;
        reader.tag()?;
    }
    match reader.rest.trim() {
        "" => Ok(()),
        rest => Err(format!("{rest:?} comes after the end")),
    }
}

impl<'a> Reader<'a> {
    /// What comes before a letter, and what comes from it on.
    fn until(&self, letter: char) -> Result<(&'a str, &'a str), String> {
        let at = self.rest.find(letter);
        at.map(|at| self.rest.split_at(at))
            .ok_or_else(|| format!("there is no {letter} in {:?}", self.rest))
    }

    /// Reads what has to stand here.
    fn expect(&mut self, expected: &str) -> Result<(), String> {
        let rest = self.rest.strip_prefix(expected);
        self.rest =
            rest.ok_or_else(|| format!("{expected:?} is missing before {:?}", self.rest))?;
        Ok(())
    }

    fn name(&mut self) -> Result<&'a str, String> {
        let letters = |c: char| c.is_ascii_alphanumeric() || c == '-';
        let end = self.rest.find(|c| !letters(c)).unwrap_or(self.rest.len());
        let (name, rest) = self.rest.split_at(end);
        self.rest = rest;
        name.starts_with(|c: char| c.is_ascii_alphabetic())
            .then_some(name)
            .ok_or_else(|| format!("there is no name before {rest:?}"))
    }

    fn tag(&mut self) -> Result<(), String> {
        self.expect("<")?;
        if let Some(rest) = self.rest.strip_prefix('/') {
            self.rest = rest;
            let name = self.name()?;
            if self.open.pop() != Some(name) {
                return Err(format!("{name} is not open"));
            }
            return self.expect(">");
        }
        let name = self.name()?;
        self.attributes()?;
        if let Some(rest) = self.rest.strip_prefix("/>") {
            self.rest = rest;
            return Ok(());
        }
        self.open.push(name);
        self.expect(">")
    }

    fn attributes(&mut self) -> Result<(), String> {
        let mut names = Vec::new();
        while let Some(rest) = self.rest.strip_prefix(' ') {
            self.rest = rest;
            let name = self.name()?;
            if names.contains(&name) {
                return Err(format!("{name} is given twice"));
            }
            names.push(name);
            self.expect("=\"")?;
            let (value, rest) = self.until('"')?;
            check_text(value)?;
            self.rest = rest;
            self.expect("\"")?;
        }
        Ok(())
    }
}

fn check_text(text: &str) -> Result<(), String> {
    if text.contains(['<', '>']) {
        return Err(format!("{text:?} has a bracket"));
    }
    let known = ["amp;", "lt;", "gt;", "quot;", "apos;"];
    for after in text.split('&').skip(1) {
        if !known.iter().any(|entity| after.starts_with(entity)) {
            return Err(format!("&{after} is no entity"));
        }
    }
    Ok(())
}

#[test]
fn well_formed_texts_pass() {
    for text in [
        "<a/>",
        "<a></a>\n",
        "<a b=\"c &amp; d\" e-f=\"\"><b1>g &lt; h</b1>i<c/></a>",
    ] {
        assert_eq!(check(text), Ok(()), "{text}");
    }
}

#[test]
fn faults_are_found() {
    for text in [
        "",
        "a",
        "<a>",
        "</a>",
        "<a></b>",
        "<a><b></a></b>",
        "<a/><b/>",
        "<a/>b",
        "b<a/>",
        "<a b/>",
        "<a b=c/>",
        "<a b='c'/>",
        "<a b=\"c/>",
        "<a b=\"c\"d=\"e\"/>",
        "<a b=\"c\" b=\"d\"/>",
        "<a b=\"<\"/>",
        "<a>&</a>",
        "<a>&nbsp;</a>",
        "<a>&amp</a>",
        "<a>></a>",
        "<a>\u{1}</a>",
        "<1/>",
        "<a",
        "<a/ >",
        "<!-- a --><b/>",
    ] {
        assert!(check(text).is_err(), "{text}");
    }
}
