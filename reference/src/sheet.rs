//! Writing a sheet: the verdict field, then the word or the standings.

use crate::search::{Answer, Verdict};
use crate::standing::Standing;

pub const VERDICT_TAG: u8 = 1;
pub const WORD_TAG: u8 = 2;
pub const STANDING_TAG: u8 = 3;
pub const PROVED: u8 = 1;
pub const REFUTED: u8 = 2;

pub fn write_sheet(answer: &Answer) -> Vec<u8> {
    match answer {
        Answer::Path(verdict) => write_verdict(verdict),
        Answer::Ring(verdict) => write_verdict(verdict),
    }
}

fn write_verdict<S: Standing>(verdict: &Verdict<S>) -> Vec<u8> {
    let mut sheet = Vec::new();
    match verdict {
        Verdict::Proved(standings) => {
            write_field(&mut sheet, VERDICT_TAG, &[PROVED]);
            for standing in standings {
                let mut contents = Vec::with_capacity(S::BYTES);
                standing.write(&mut contents);
                write_field(&mut sheet, STANDING_TAG, &contents);
            }
        }
        Verdict::Refuted(word) => {
            write_field(&mut sheet, VERDICT_TAG, &[REFUTED]);
            let contents: Vec<u8> = word.iter().map(|&number| number as u8).collect();
            write_field(&mut sheet, WORD_TAG, &contents);
        }
    }
    sheet
}

/// One-byte tag, two-byte big-endian length, contents.
pub fn write_field(out: &mut Vec<u8>, tag: u8, contents: &[u8]) {
    out.push(tag);
    out.extend((contents.len() as u16).to_be_bytes());
    out.extend(contents);
}

/// The line of the query program for an answer.
pub fn answer_line(answer: &Answer) -> String {
    fn line<S>(verdict: &Verdict<S>) -> String {
        match verdict {
            Verdict::Proved(standings) => format!("proved {}", standings.len()),
            Verdict::Refuted(word) => {
                let numbers: Vec<String> = word.iter().map(usize::to_string).collect();
                format!("refuted {}", numbers.join(" "))
            }
        }
    }
    match answer {
        Answer::Path(verdict) => line(verdict),
        Answer::Ring(verdict) => line(verdict),
    }
}
