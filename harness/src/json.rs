//! A reader for the JSON of the test vectors: no fractions, no escapes but `\"`, `\\` and `\/`.

use std::collections::BTreeMap;

#[derive(Clone, Debug, PartialEq, Eq)]
pub enum Json {
    Null,
    Bool(bool),
    Number(i64),
    Text(String),
    List(Vec<Json>),
    Object(BTreeMap<String, Json>),
}

impl Json {
    pub fn parse(text: &str) -> Result<Json, String> {
        let mut reader = Reader {
            octets: text.as_bytes(),
            at: 0,
        };
        let value = reader.value()?;
        reader.space();
        if reader.at < reader.octets.len() {
            return reader.fail("end of text expected");
        }
        Ok(value)
    }

    pub fn get(&self, key: &str) -> Option<&Json> {
        match self {
            Json::Object(entries) => entries.get(key),
            _ => None,
        }
    }

    /// The entry of that name; a vector that lacks it is a fault of the vector.
    pub fn at(&self, key: &str) -> &Json {
        self.get(key)
            .unwrap_or_else(|| panic!("no entry {key} in {self:?}"))
    }

    pub fn number(&self) -> i64 {
        match self {
            Json::Number(number) => *number,
            _ => panic!("a number expected: {self:?}"),
        }
    }

    pub fn unsigned(&self) -> u64 {
        u64::try_from(self.number()).expect("a number of at least 0 expected")
    }

    pub fn flag(&self) -> bool {
        match self {
            Json::Bool(flag) => *flag,
            _ => panic!("a flag expected: {self:?}"),
        }
    }

    pub fn text(&self) -> &str {
        match self {
            Json::Text(text) => text,
            _ => panic!("a text expected: {self:?}"),
        }
    }

    pub fn list(&self) -> &[Json] {
        match self {
            Json::List(list) => list,
            _ => panic!("a list expected: {self:?}"),
        }
    }
}

struct Reader<'a> {
    octets: &'a [u8],
    at: usize,
}

impl Reader<'_> {
    fn fail<T>(&self, what: &str) -> Result<T, String> {
        Err(format!("{what} at {}", self.at))
    }

    fn space(&mut self) {
        while matches!(self.peek(), Some(b' ' | b'\t' | b'\r' | b'\n')) {
            self.at += 1;
        }
    }

    fn peek(&self) -> Option<u8> {
        self.octets.get(self.at).copied()
    }

    fn skip(&mut self, octet: u8) -> bool {
        self.space();
        let found = self.peek() == Some(octet);
        self.at += usize::from(found);
        found
    }

    fn expect(&mut self, octet: u8) -> Result<(), String> {
        if self.skip(octet) {
            return Ok(());
        }
        self.fail(&format!("{:?} expected", octet as char))
    }

    fn word(&mut self, word: &str, value: Json) -> Result<Json, String> {
        if self.octets[self.at..].starts_with(word.as_bytes()) {
            self.at += word.len();
            return Ok(value);
        }
        self.fail("no such word")
    }

    fn value(&mut self) -> Result<Json, String> {
        self.space();
        match self.peek() {
            Some(b'{') => self.object(),
            Some(b'[') => self.list(),
            Some(b'"') => Ok(Json::Text(self.text()?)),
            Some(b'-' | b'0'..=b'9') => self.number(),
            Some(b'n') => self.word("null", Json::Null),
            Some(b't') => self.word("true", Json::Bool(true)),
            Some(b'f') => self.word("false", Json::Bool(false)),
            _ => self.fail("a value expected"),
        }
    }

    fn object(&mut self) -> Result<Json, String> {
        self.expect(b'{')?;
        let mut entries = BTreeMap::new();
        if self.skip(b'}') {
            return Ok(Json::Object(entries));
        }
        loop {
            self.space();
            let key = self.text()?;
            self.expect(b':')?;
            let value = self.value()?;
            if entries.insert(key, value).is_some() {
                return self.fail("a key stands twice before");
            }
            if !self.skip(b',') {
                break;
            }
        }
        self.expect(b'}')?;
        Ok(Json::Object(entries))
    }

    fn list(&mut self) -> Result<Json, String> {
        self.expect(b'[')?;
        let mut list = Vec::new();
        if self.skip(b']') {
            return Ok(Json::List(list));
        }
        loop {
            list.push(self.value()?);
            if !self.skip(b',') {
                break;
            }
        }
        self.expect(b']')?;
        Ok(Json::List(list))
    }

    fn text(&mut self) -> Result<String, String> {
        self.expect(b'"')?;
        let mut octets = Vec::new();
        loop {
            match self.peek() {
                None => return self.fail("text without an end"),
                Some(b'"') => break,
                Some(b'\\') => {
                    self.at += 1;
                    match self.peek() {
                        Some(octet @ (b'"' | b'\\' | b'/')) => octets.push(octet),
                        _ => return self.fail("no such escape"),
                    }
                }
                Some(octet) => octets.push(octet),
            }
            self.at += 1;
        }
        self.at += 1;
        String::from_utf8(octets).map_err(|_| "text is not UTF-8".into())
    }

    fn number(&mut self) -> Result<Json, String> {
        let start = self.at;
        self.at += usize::from(self.peek() == Some(b'-'));
        while matches!(self.peek(), Some(b'0'..=b'9')) {
            self.at += 1;
        }
        if matches!(self.peek(), Some(b'.' | b'e' | b'E')) {
            return self.fail("whole number expected");
        }
        let digits = std::str::from_utf8(&self.octets[start..self.at]).expect("digits");
        digits
            .parse()
            .map(Json::Number)
            .map_err(|fault| format!("{fault} at {start}"))
    }
}

#[cfg(test)]
mod tests {
    use super::Json;

    #[test]
    fn reads_values() {
        let text = r#" {"a":[1,-2, 4294967296],"b":{"c":null,"d":true,"e":false},"f":"x\"\\y","g":[],"h":{}} "#;
        let json = Json::parse(text).unwrap();
        let numbers: Vec<i64> = json.at("a").list().iter().map(Json::number).collect();
        assert_eq!(numbers, [1, -2, 4_294_967_296]);
        assert_eq!(json.at("b").at("c"), &Json::Null);
        assert!(json.at("b").at("d").flag());
        assert!(!json.at("b").at("e").flag());
        assert_eq!(json.at("f").text(), "x\"\\y");
        assert!(json.at("g").list().is_empty());
        assert_eq!(json.at("h").get("a"), None);
    }

    #[test]
    fn refuses_other_texts() {
        let texts = [
            "",
            "{",
            "[1",
            "[1,]",
            "{\"a\":1,}",
            "{\"a\" 1}",
            "1 2",
            "\"a",
            "tru",
            "1.5",
            "1e3",
            "-",
            "99999999999999999999",
            "{\"a\":1,\"a\":2}",
            "\"\\u0041\"",
            "]",
        ];
        for text in texts {
            assert!(Json::parse(text).is_err(), "{text}");
        }
    }
}
