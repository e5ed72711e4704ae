//! Another reader of change request 3's subset, from tag to tag and of one way only. Where a text stops short it says how the
//! text may go on.

#[derive(Debug, PartialEq, Eq)]
pub enum Stop {
    /// No text of the subset goes on with the byte at this place.
    Wrong(usize),
    /// The text is cut; it may go on with these bytes.
    Cut(String),
}

pub fn read(text: &[u8]) -> Result<(), Stop> {
    let mut descent = Descent { text, at: 0 };
    if text.starts_with(b"<?") {
        descent.at = 2;
        descent.behind("?>")?;
    }
    while descent.another_criterion()? {
        descent.criterion()?;
    }
    Ok(())
}

/// Where number 14 is placed, if it is.
pub fn place(text: &[u8]) -> Option<usize> {
    match read(text) {
        Ok(()) => None,
        Err(Stop::Wrong(place)) => Some(place),
        Err(Stop::Cut(_)) => Some(text.len()),
    }
}

/// A text of the subset with this beginning, if there is one.
pub fn completed(beginning: &[u8]) -> Option<Vec<u8>> {
    let mut text = beginning.to_vec();
    loop {
        match read(&text) {
            Ok(()) => return Some(text),
            Err(Stop::Wrong(_)) => return None,
            Err(Stop::Cut(rest)) => text.extend(rest.bytes()),
        }
    }
}

struct Descent<'a> {
    text: &'a [u8],
    at: usize,
}

impl Descent<'_> {
    /// To the place behind the first of these marks.
    fn behind(&mut self, mark: &str) -> Result<(), Stop> {
        let rest = &self.text[self.at..];
        let found = rest.windows(mark.len()).position(|bytes| bytes == mark.as_bytes());
        self.at += found.ok_or_else(|| Stop::Cut(mark.to_string()))? + mark.len();
        Ok(())
    }

    /// One of these words. None begins with another.
    fn word(&mut self, words: &[String]) -> Result<usize, Stop> {
        let begin = self.at;
        loop {
            let read = &self.text[begin..self.at];
            let left: Vec<usize> =
                (0..words.len()).filter(|&number| words[number].as_bytes().starts_with(read)).collect();
            match left[..] {
                [] => return Err(Stop::Wrong(self.at - 1)),
                [number, ..] if words[number].len() == read.len() => return Ok(number),
                [number, ..] if self.at == self.text.len() => {
                    return Err(Stop::Cut(words[number][read.len()..].to_string()));
                }
                _ => self.at += 1,
            }
        }
    }

    fn blanks(&mut self) {
        while self.at < self.text.len() && b" \t\r\n".contains(&self.text[self.at]) {
            self.at += 1;
        }
    }

    /// The next tag, one of these, behind blanks and comments. The first of them leads to the end.
    fn tag<'t>(&mut self, tags: &[&'t str]) -> Result<&'t str, Stop> {
        let mut words: Vec<String> = tags.iter().map(|tag| format!("<{tag}>")).collect();
        words.push("<!--".to_string());
        loop {
            self.blanks();
            let number = self.word(&words)?;
            if number < tags.len() {
                return Ok(tags[number]);
            }
            self.behind("-->")?;
        }
    }

    fn another_criterion(&mut self) -> Result<bool, Stop> {
        loop {
            self.blanks();
            if self.at == self.text.len() {
                return Ok(false);
            }
            let words = ["<!--", "<InitialFilterCriteria>"].map(str::to_string);
            if self.word(&words)? == 1 {
                return Ok(true);
            }
            self.behind("-->")?;
        }
    }

    fn number(&mut self, tag: &str) -> Result<(), Stop> {
        let digit = |byte: Option<&u8>| byte.is_some_and(u8::is_ascii_digit);
        match self.text.get(self.at) {
            None => return Err(Stop::Cut("0".to_string())),
            Some(byte) if !byte.is_ascii_digit() => return Err(Stop::Wrong(self.at)),
            Some(_) => {}
        }
        while digit(self.text.get(self.at)) {
            self.at += 1;
        }
        self.word(&[format!("</{tag}>")]).map(drop)
    }

    fn string(&mut self, tag: &str) -> Result<(), Stop> {
        let entities = ["&lt;", "&gt;", "&amp;", "&quot;", "&apos;"].map(str::to_string);
        loop {
            match self.text.get(self.at) {
                Some(b'&') => drop(self.word(&entities)?),
                Some(b'<') | None => return self.word(&[format!("</{tag}>")]).map(drop),
                Some(_) => self.at += 1,
            }
        }
    }

    fn criterion(&mut self) -> Result<(), Stop> {
        self.tag(&["Priority"])?;
        self.number("Priority")?;
        if self.tag(&["ApplicationServer", "TriggerPoint"])? == "TriggerPoint" {
            self.trigger()?;
            self.tag(&["ApplicationServer"])?;
        }
        self.server()?;
        if self.tag(&["/InitialFilterCriteria", "ProfilePartIndicator"])? == "ProfilePartIndicator" {
            self.number("ProfilePartIndicator")?;
            self.tag(&["/InitialFilterCriteria"])?;
        }
        Ok(())
    }

    fn trigger(&mut self) -> Result<(), Stop> {
        self.tag(&["ConditionTypeCNF"])?;
        self.number("ConditionTypeCNF")?;
        self.tag(&["SPT"])?;
        self.row()?;
        while self.tag(&["/TriggerPoint", "SPT"])? == "SPT" {
            self.row()?;
        }
        Ok(())
    }

    fn row(&mut self) -> Result<(), Stop> {
        if self.tag(&["Group", "ConditionNegated"])? == "ConditionNegated" {
            self.number("ConditionNegated")?;
            self.tag(&["Group"])?;
        }
        self.number("Group")?;
        let tests = ["Method", "RequestURI", "SIPHeader", "SessionCase", "SessionDescription", "Group"];
        let mut test = self.tag(&tests)?;
        while test == "Group" {
            self.number("Group")?;
            test = self.tag(&tests)?;
        }
        match test {
            "SIPHeader" => self.with_content("Header", "/SIPHeader")?,
            "SessionDescription" => self.with_content("Line", "/SessionDescription")?,
            "SessionCase" => self.number(test)?,
            _ => self.string(test)?,
        }
        for _ in 0..2 {
            if self.tag(&["/SPT", "RegistrationType"])? == "/SPT" {
                return Ok(());
            }
            self.number("RegistrationType")?;
        }
        self.tag(&["/SPT"]).map(drop)
    }

    fn with_content(&mut self, tag: &str, end: &str) -> Result<(), Stop> {
        self.tag(&[tag])?;
        self.string(tag)?;
        if self.tag(&[end, "Content"])? == "Content" {
            self.string("Content")?;
            self.tag(&[end])?;
        }
        Ok(())
    }

    fn server(&mut self) -> Result<(), Stop> {
        self.tag(&["ServerName"])?;
        self.string("ServerName")?;
        let mut next = self.tag(&["/ApplicationServer", "DefaultHandling", "ServiceInfo"])?;
        if next == "DefaultHandling" {
            self.number("DefaultHandling")?;
            next = self.tag(&["/ApplicationServer", "ServiceInfo"])?;
        }
        if next == "ServiceInfo" {
            self.string("ServiceInfo")?;
            self.tag(&["/ApplicationServer"])?;
        }
        Ok(())
    }
}
