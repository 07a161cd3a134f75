//! A reader of JSON for the plain programs. It takes files without faults, and no escapes in texts.
use std::collections::HashMap;

/// The JSON values that a graph file has.
pub enum Json {
    Null,
    Number(i64),
    Text(String),
    List(Vec<Json>),
    Members(HashMap<String, Json>),
}

struct Reader<'a> {
    bytes: &'a [u8],
    at: usize,
}

impl Reader<'_> {
    fn skip(&mut self) -> u8 {
        while self.bytes[self.at].is_ascii_whitespace() || matches!(self.bytes[self.at], b',' | b':') {
            self.at += 1;
        }
        self.bytes[self.at]
    }

    fn text(&mut self) -> String {
        self.at += 1;
        let start = self.at;
        while self.bytes[self.at] != b'"' {
            assert!(self.bytes[self.at] != b'\\', "a text with an escape");
            self.at += 1;
        }
        self.at += 1;
        String::from_utf8_lossy(&self.bytes[start..self.at - 1]).into_owned()
    }

    fn value(&mut self) -> Json {
        match self.skip() {
            b'"' => Json::Text(self.text()),
            b'[' => {
                self.at += 1;
                let mut list = Vec::new();
                while self.skip() != b']' {
                    list.push(self.value());
                }
                self.at += 1;
                Json::List(list)
            }
            b'{' => {
                self.at += 1;
                let mut members = HashMap::new();
                while self.skip() != b'}' {
                    let name = self.text();
                    members.insert(name, self.value());
                }
                self.at += 1;
                Json::Members(members)
            }
            b'n' => {
                self.at += "null".len();
                Json::Null
            }
            _ => {
                let start = self.at;
                while matches!(self.bytes[self.at], b'-' | b'0'..=b'9') {
                    self.at += 1;
                }
                Json::Number(std::str::from_utf8(&self.bytes[start..self.at]).unwrap().parse().unwrap())
            }
        }
    }
}

impl Json {
    pub fn read(path: &str) -> Json {
        let bytes = std::fs::read(path).unwrap();
        Reader { bytes: &bytes, at: 0 }.value()
    }

    pub fn get(&self, name: &str) -> &Json {
        let Json::Members(members) = self else { panic!("no object with {name}") };
        &members[name]
    }

    pub fn names(&self) -> impl Iterator<Item = &str> {
        let Json::Members(members) = self else { panic!("no object") };
        members.keys().map(String::as_str)
    }

    pub fn list(&self) -> &[Json] {
        let Json::List(list) = self else { panic!("no array") };
        list
    }

    pub fn number(&self) -> i64 {
        let Json::Number(number) = self else { panic!("no number") };
        *number
    }

    pub fn time(&self) -> u64 {
        self.number() as u64
    }

    pub fn text(&self) -> &str {
        let Json::Text(text) = self else { panic!("no text") };
        text
    }
}
