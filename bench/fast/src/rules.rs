//! Suppressions.

use crate::bytes::{line_feed, number, words_in, words_of};
use crate::names::is_site;
use crate::reader::{too_long, Lines, TextFault, LONGEST};

enum Rule {
    /// The races at a site; `None` is the missing site.
    Site(Option<Vec<u8>>),
    /// The races of the words from the first to the second.
    Words(u64, u64),
    Nothing,
}

/// The rules of a suppression text, in order.
#[derive(Default)]
pub struct Rules {
    rules: Vec<Rule>,
    lines: u64,
}

impl Rules {
    pub fn len(&self) -> usize {
        self.rules.len()
    }

    /// The first rule that takes a race of a word at a site.
    pub fn first_for(&self, site: Option<&[u8]>, word: u64) -> Option<usize> {
        self.rules.iter().position(|rule| match rule {
            Rule::Site(named) => named.as_deref() == site,
            Rule::Words(first, last) => (*first..=*last).contains(&word),
            Rule::Nothing => false,
        })
    }

    fn line(&mut self, line: &[u8]) -> Result<(), &'static str> {
        if line.first() == Some(&b'#') {
            return Ok(());
        }
        let mut words = words_of(line);
        let needed = match words.next() {
            None => return Ok(()),
            Some(b"site") => 1,
            Some(b"words") => 2,
            Some(_) => return Err("bad verb"),
        };
        let mut operands: [&[u8]; 2] = [b""; 2];
        for operand in operands.iter_mut().take(needed) {
            *operand = words.next().ok_or("missing operand")?;
        }
        if words.next().is_some() {
            return Err("extra operand");
        }
        self.rules.push(match operands {
            [site, _] if needed == 1 => match is_site(site) {
                true => Rule::Site((site != b"-").then(|| site.to_vec())),
                false => return Err("bad name"),
            },
            [address, size] => {
                let address = number(address).ok_or("bad number")?;
                let size = number(size).ok_or("bad number")?;
                words_in(address, size)?.map_or(Rule::Nothing, |(first, last)| Rule::Words(first, last))
            }
        });
        Ok(())
    }
}

impl Lines for Rules {
    fn take(&mut self, text: &[u8], end: usize) -> Result<(), TextFault> {
        let mut at = 0;
        while at < end {
            let stop = line_feed(text, at);
            self.lines += 1;
            if stop - at > LONGEST {
                return Err(too_long(self.lines));
            }
            self.line(&text[at..stop]).map_err(|kind| TextFault { line: self.lines, kind })?;
            at = stop + 1;
        }
        Ok(())
    }

    fn taken(&self) -> u64 {
        self.lines
    }

    fn end(&mut self) -> Result<(), TextFault> {
        Ok(())
    }
}
