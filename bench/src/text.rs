use crate::fault::Fault;
use std::ops::RangeInclusive;

/// A line whose bytes are in order, without its end.
#[derive(Clone, Copy)]
pub struct Line<'a> {
    pub bytes: &'a [u8],
    pub number: usize,
}

/// The fields of a line, parted by one space.
pub struct Fields<'a, const N: usize> {
    fields: [&'a [u8]; N],
    line: usize,
}

impl<'a> Line<'a> {
    /// Checks a line with its end.
    pub fn new(text: &'a [u8], number: usize) -> Result<Line<'a>, Fault> {
        let is_format = |b: &u8| matches!(b, b'a'..=b'z' | b'0'..=b'9' | b' ');
        match text.split_last() {
            Some((b'\n', bytes)) if bytes.iter().all(is_format) => Ok(Line { bytes, number }),
            _ => Err(Fault::reader(2, number, 0)),
        }
    }

    pub fn refuse<T>(&self, number: u32) -> Result<T, Fault> {
        Err(Fault::reader(number, self.number, 0))
    }

    pub fn is(&self, text: &[u8]) -> Result<(), Fault> {
        if self.bytes == text {
            Ok(())
        } else {
            self.refuse(3)
        }
    }

    pub fn fields<const N: usize>(&self) -> Result<Fields<'a, N>, Fault> {
        let mut fields = [&b""[..]; N];
        let mut count = 0;
        for field in self.bytes.split(|b| *b == b' ') {
            if count == N || field.is_empty() {
                return self.refuse(4);
            }
            fields[count] = field;
            count += 1;
        }
        if count < N {
            return self.refuse(4);
        }
        Ok(Fields {
            fields,
            line: self.number,
        })
    }
}

impl<'a, const N: usize> Fields<'a, N> {
    pub fn at(&self, field: usize) -> &'a [u8] {
        self.fields[field - 1]
    }

    pub fn refuse<T>(&self, number: u32, field: usize) -> Result<T, Fault> {
        Err(Fault::reader(number, self.line, field))
    }

    pub fn name(&self, field: usize) -> Result<&'a [u8], Fault> {
        let text = self.at(field);
        if text.len() <= 12 && text[0].is_ascii_lowercase() {
            Ok(text)
        } else {
            self.refuse(6, field)
        }
    }

    pub fn number(&self, field: usize, range: RangeInclusive<u64>) -> Result<u64, Fault> {
        let text = self.at(field);
        let leads = text.len() > 1 && text[0] == b'0';
        if leads || text.len() > 9 || !text.iter().all(u8::is_ascii_digit) {
            return self.refuse(5, field);
        }
        let number = text
            .iter()
            .fold(0, |n, digit| n * 10 + u64::from(digit - b'0'));
        if range.contains(&number) {
            Ok(number)
        } else {
            self.refuse(5, field)
        }
    }
}
