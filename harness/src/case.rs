//! A case: the four files, the room lent for the answer, and what is printed for it.
use crate::pass::{collect, Input};
use crate::plain::plain_form;
use crate::sheet::{read_flags, Refusal};
use std::collections::HashMap;

/// What the collect program lends, in bytes.
pub const ROOM: usize = 1 << 20;

#[derive(Clone, Default)]
pub struct Case {
    pub name: String,
    pub room: usize,
    pub sheet: Vec<u8>,
    pub text: Vec<u8>,
    pub units: Vec<u8>,
    pub flags: Vec<u8>,
}

/// What is stored of a case: what the collection prints, and what the plain form prints.
#[derive(Default, PartialEq)]
pub struct Answers {
    pub collect: Option<Vec<u8>>,
    pub plain: Option<Vec<u8>>,
}

pub fn printed(room: usize, answer: Result<Vec<u8>, Refusal>) -> Vec<u8> {
    // 20 comes last
    match answer {
        Ok(bytes) if bytes.len() <= room => bytes,
        Ok(_) => b"refused\t20\t0\n".to_vec(),
        Err(Refusal(n, line)) => format!("refused\t{n}\t{line}\n").into_bytes(),
    }
}

impl Case {
    pub fn input(&self) -> Input<'_> {
        Input { sheet: &self.sheet, text: &self.text, units: &self.units, flags: read_flags(&self.flags) }
    }

    pub fn collect_answer(&self) -> Vec<u8> {
        printed(self.room, collect(&self.input()).map(|c| c.page))
    }

    pub fn plain_answer(&self) -> Vec<u8> {
        printed(self.room, plain_form(&self.input()))
    }

    pub fn answers(&self) -> Answers {
        Answers { collect: Some(self.collect_answer()), plain: Some(self.plain_answer()) }
    }

    /// `case`, the room and the name, in which an LF becomes a blank; then the parts
    pub fn write(&self, out: &mut Vec<u8>) {
        self.write_with(out, &self.answers())
    }

    pub fn write_with(&self, out: &mut Vec<u8>, answers: &Answers) {
        out.extend_from_slice(format!("case {} {}\n", self.room, self.name.replace('\n', " ")).as_bytes());
        let files = [("sheet", &self.sheet), ("text", &self.text), ("units", &self.units), ("flags", &self.flags)];
        files.iter().for_each(|(name, bytes)| write_part(out, name, bytes));
        let answers = [("collect", &answers.collect), ("plain", &answers.plain)];
        answers.iter().for_each(|(name, answer)| answer.iter().for_each(|bytes| write_part(out, name, bytes)));
    }

    /// the cases of a file, each with the answers that stand there; a part that it does not know is passed over
    pub fn read_all(bytes: &[u8]) -> Vec<(Case, Answers)> {
        let (mut out, mut at) = (Vec::new(), 0);
        while at < bytes.len() {
            let (room, name) = words(line(bytes, &mut at), "case ");
            let mut parts = HashMap::new();
            while bytes[at..].starts_with(b"part ") {
                let (part, length) = words(line(bytes, &mut at), "part ");
                let end = at + length.parse::<usize>().expect("a length");
                assert_eq!(bytes[end], b'\n');
                parts.entry(part).or_insert_with(|| bytes[at..end].to_vec());
                at = end + 1;
            }
            let answers = Answers { collect: parts.remove("collect"), plain: parts.remove("plain") };
            let mut file = |name| parts.remove(name).unwrap_or_default();
            let case = Case {
                name: name.to_string(),
                room: room.parse().expect("a number"),
                sheet: file("sheet"),
                text: file("text"),
                units: file("units"),
                flags: file("flags"),
            };
            out.push((case, answers));
        }
        out
    }
}

/// `part`, the name and the length on a line; then the bytes and LF
fn write_part(out: &mut Vec<u8>, name: &str, bytes: &[u8]) {
    out.extend_from_slice(format!("part {name} {}\n", bytes.len()).as_bytes());
    out.extend_from_slice(bytes);
    out.push(b'\n');
}

/// the line at a place, which is moved past its LF
fn line<'a>(bytes: &'a [u8], at: &mut usize) -> &'a str {
    let start = *at;
    let end = start + bytes[start..].iter().position(|&b| b == b'\n').expect("a line");
    *at = end + 1;
    std::str::from_utf8(&bytes[start..end]).expect("a line of text")
}

/// the two things that a line says after its first word, parted by its first blank
fn words<'a>(line: &'a str, first: &str) -> (&'a str, &'a str) {
    line.strip_prefix(first).and_then(|rest| rest.split_once(' ')).unwrap_or_else(|| panic!("not `{first}`: {line}"))
}
