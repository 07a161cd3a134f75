//! The tables of actuators, as text.
use crate::program::{Program, Tag};
use std::io::Write;

/// The end of a line, which is written from its last byte back to its first.
struct End {
    bytes: [u8; 72],
    first: usize,
}

impl End {
    fn put(&mut self, byte: u8) {
        self.first -= 1;
        self.bytes[self.first] = byte;
    }

    fn put_number(&mut self, number: u64) {
        self.put(b'0' + (number % 10) as u8);
        let mut left = number / 10;
        while left > 0 {
            self.put(b'0' + (left % 10) as u8);
            left /= 10;
        }
    }

    /// An end with a tag and a value, as `,time,step,value`.
    fn new(tag: Tag, value: i64) -> End {
        let mut end = End { bytes: [b'\n'; 72], first: 71 };
        end.put_number(value.unsigned_abs());
        if value < 0 {
            end.put(b'-');
        }
        end.put(b',');
        end.put_number(tag.step);
        end.put(b',');
        end.put_number(tag.time);
        end.put(b',');
        end
    }
}

/// The lines of each actor that acts.
pub struct Tables<'a> {
    program: &'a Program,
    texts: Vec<Vec<u8>>,
}

impl Tables<'_> {
    pub fn new(program: &Program) -> Tables<'_> {
        Tables { program, texts: vec![Vec::new(); program.actors.len()] }
    }

    pub fn add(&mut self, actor: usize, tag: Tag, value: i64) {
        let text = &mut self.texts[actor];
        text.extend_from_slice(self.program.actors[actor].name.as_bytes());
        let end = End::new(tag, value);
        text.extend_from_slice(&end.bytes[end.first..]);
    }

    pub fn text(&self) -> Vec<u8> {
        let head: &[u8] = b"actuator,time,step,value\n";
        [head].into_iter().chain(self.texts.iter().map(|text| &text[..])).collect::<Vec<_>>().concat()
    }
}

/// Writes a text to the standard output.
pub fn write(text: &[u8]) {
    std::io::stdout().lock().write_all(text).unwrap();
}
