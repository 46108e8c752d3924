//! The text of a trace (docs/RULES.md 6), a line in and a line out.

use original::{
    driver::{Record, Word},
    tables::{Range, Tables},
};

use crate::session::{Call, Outcome};

#[derive(Clone, Copy, Debug, PartialEq, Eq)]
pub enum Line {
    Call(Call),
    Driver(Record),
    Result,
}

const DRIVER_WORDS: [(&str, Word); 13] = [
    ("reserve", Word::Reserve),
    ("create", Word::Create),
    ("map", Word::Map),
    ("access", Word::Access),
    ("unmap", Word::Unmap),
    ("release", Word::Release),
    ("record", Word::Record),
    ("asked", Word::Asked),
    ("wait", Word::Wait),
    ("sync", Word::Sync),
    ("giveback", Word::Giveback),
    ("small", Word::Small),
    ("dropsmall", Word::DropSmall),
];

pub fn word_name(word: Word) -> &'static str {
    DRIVER_WORDS[word as usize].0
}

/// A line's word, known or not, and its three numbers, or what is wrong with its form.
pub fn fields(line: &[u8]) -> Result<(&str, [u64; 3]), String> {
    let line = std::str::from_utf8(line).map_err(|_| "not plain text".to_string())?;
    let mut fields = line.split('\t');
    let word = fields.next().unwrap_or_default();
    let numbers: Vec<u64> = fields.map(number).collect::<Result<_, _>>()?;
    let numbers = <[u64; 3]>::try_from(numbers)
        .map_err(|_| "not a word and three numbers parted by tabs".to_string())?;
    Ok((word, numbers))
}

/// The line, or what is wrong with it. Fields that are 0 in docs/RULES.md 6.2 are not looked at.
pub fn parse_line(line: &[u8]) -> Result<Line, String> {
    let (word, [first, second, third]) = fields(line)?;
    Ok(match word {
        "open" => Line::Call(Call::Open {
            page_size: first,
            va_size: second,
            initial_pages: third,
        }),
        "malloc" => Line::Call(Call::Malloc {
            bytes: first,
            stream: second,
        }),
        "free" => Line::Call(Call::Free { address: first }),
        "close" => Line::Call(Call::Close),
        "result" => Line::Result,
        _ => Line::Driver(Record {
            word: driver_word(word)?,
            first,
            second,
            code: third,
        }),
    })
}

pub fn driver_word(name: &str) -> Result<Word, String> {
    let known = DRIVER_WORDS.iter().find(|(known, _)| *known == name);
    known
        .map(|(_, word)| *word)
        .ok_or_else(|| format!("no such word: {}", name.escape_debug()))
}

fn number(field: &str) -> Result<u64, String> {
    let shown = field.escape_debug();
    if field.is_empty() || !field.bytes().all(|byte| byte.is_ascii_digit()) {
        return Err(format!("not a decimal number: {shown}"));
    }
    if field.len() > 1 && field.starts_with('0') {
        return Err(format!("a needless leading zero: {shown}"));
    }
    field
        .parse()
        .map_err(|_| format!("above 2^64 - 1: {shown}"))
}

/// A call's part of the trace: its line, its records, its result.
pub fn trace_of(call: Call, outcome: &Outcome) -> String {
    let mut text = match call {
        Call::Open {
            page_size,
            va_size,
            initial_pages,
        } => line("open", page_size, va_size, initial_pages),
        Call::Malloc { bytes, stream } => line("malloc", bytes, stream, 0),
        Call::Free { address } => line("free", address, 0, 0),
        Call::Close => line("close", 0, 0, 0),
    };
    text += &outcome.records.iter().map(record_line).collect::<String>();
    let result = outcome.result;
    text + &line("result", result.first, result.second, result.answer)
}

pub fn record_line(record: &Record) -> String {
    let name = word_name(record.word);
    line(name, record.first, record.second, record.code)
}

pub fn line(word: &str, first: u64, second: u64, third: u64) -> String {
    format!("{word}\t{first}\t{second}\t{third}\n")
}

/// The tables, one entry a line; `None` is a closed pool.
pub fn tables_text(tables: Option<&Tables>) -> String {
    let Some(tables) = tables else {
        return "t-none\n".to_string();
    };
    let mut text = String::new();
    for free in &tables.free {
        let Range { address, size } = free.range;
        text += &format!("t-free\t{address}\t{size}\t{}\t{}\n", free.stream, free.id);
    }
    for live in &tables.live {
        let Range { address, size } = live.range;
        text += &format!("t-live\t{address}\t{size}\t{}\n", live.stream);
    }
    for hole in &tables.holes {
        text += &format!("t-hole\t{}\t{}\n", hole.address, hole.size);
    }
    for zombie in &tables.zombies {
        let Range { address, size } = zombie.range;
        text += &format!("t-zombie\t{address}\t{size}\t{}\n", zombie.event);
    }
    for page in &tables.pages {
        text += &format!("t-page\t{}\t{}\n", page.address, page.handle);
    }
    for root in &tables.roots {
        text += &format!("t-root\t{root}\n");
    }
    text + &format!("t-counter\t{}\n", tables.counter)
}

#[cfg(test)]
mod tests {
    use super::*;

    #[test]
    fn reads_each_word() {
        for (name, word) in DRIVER_WORDS {
            let read = parse_line(format!("{name}\t1\t2\t3").as_bytes());
            let record = Record {
                word,
                first: 1,
                second: 2,
                code: 3,
            };
            assert_eq!(read, Ok(Line::Driver(record)));
            assert_eq!(word_name(word), name);
        }
        assert_eq!(parse_line(b"result\t0\t0\t0"), Ok(Line::Result));
        assert_eq!(
            parse_line(b"free\t8\t9\t9"),
            Ok(Line::Call(Call::Free { address: 8 }))
        );
    }

    #[test]
    fn reads_the_largest_number() {
        assert!(parse_line(b"free\t18446744073709551615\t0\t0").is_ok());
        assert!(parse_line(b"free\t18446744073709551616\t0\t0").is_err());
    }

    #[test]
    fn refuses_what_is_malformed() {
        let malformed: [&[u8]; 14] = [
            b"",
            b"open",
            b"open\t4\t40",
            b"open\t4\t40\t0\t0",
            b"open\t4\t40\t0\t",
            b"open 4 40 0",
            b"open\t4\t40\t0\r",
            b"open\t04\t40\t0",
            b"open\t+4\t40\t0",
            b"open\t-4\t40\t0",
            b"open\t\t40\t0",
            b"Open\t4\t40\t0",
            b"bad\t1\t0\t0",
            b"short\t1\t0\t0",
        ];
        for line in malformed {
            assert!(parse_line(line).is_err(), "{}", line.escape_ascii());
        }
        assert!(parse_line(b"open\t4\t40\t\xff").is_err());
    }
}
