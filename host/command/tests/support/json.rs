//! A strict JSON parser (RFC 8259): nothing before or after the value, no key twice.

use std::collections::BTreeMap;

/// A value.
#[derive(Clone, Debug, PartialEq)]
pub enum Json {
    /// null
    Null,
    /// true or false
    Bool(bool),
    /// A whole number from 0.
    Number(u64),
    /// Any other number.
    Fraction(f64),
    /// A string.
    String(String),
    /// An array.
    Array(Vec<Json>),
    /// An object.
    Object(BTreeMap<String, Json>),
}

impl Json {
    /// Parses a text that is one value.
    pub fn parse(text: &str) -> Result<Json, String> {
        let mut parser = Parser { rest: text };
        let value = parser.value()?;
        match parser.rest {
            "" => Ok(value),
            rest => Err(format!("after the value: {rest}")),
        }
    }

    /// A text of the test itself.
    #[track_caller]
    pub fn of(text: &str) -> Json {
        Json::parse(text).expect("JSON")
    }

    /// The value of a key of an object.
    #[track_caller]
    pub fn at(&self, key: &str) -> &Json {
        let Json::Object(members) = self else {
            panic!("no object: {self:?}")
        };
        members
            .get(key)
            .unwrap_or_else(|| panic!("no {key}: {self:?}"))
    }

    /// The keys of an object, sorted.
    #[track_caller]
    pub fn keys(&self) -> Vec<&str> {
        let Json::Object(members) = self else {
            panic!("no object: {self:?}")
        };
        members.keys().map(String::as_str).collect()
    }

    /// The text of a string.
    #[track_caller]
    pub fn text(&self) -> &str {
        match self {
            Json::String(text) => text,
            other => panic!("no string: {other:?}"),
        }
    }
}

struct Parser<'a> {
    rest: &'a str,
}

impl Parser<'_> {
    fn value(&mut self) -> Result<Json, String> {
        self.blanks();
        let value = match self.rest.chars().next() {
            Some('{') => self.object(),
            Some('[') => self.array(),
            Some('"') => Ok(Json::String(self.string()?)),
            Some('-' | '0'..='9') => self.number(),
            _ if self.take("null") => Ok(Json::Null),
            _ if self.take("true") => Ok(Json::Bool(true)),
            _ if self.take("false") => Ok(Json::Bool(false)),
            _ => Err(format!("no value: {}", self.rest)),
        };
        self.blanks();
        value
    }

    fn blanks(&mut self) {
        self.rest = self.rest.trim_start_matches([' ', '\t', '\n', '\r']);
    }

    fn take(&mut self, token: &str) -> bool {
        let rest = self.rest.strip_prefix(token);
        self.rest = rest.unwrap_or(self.rest);
        rest.is_some()
    }

    fn wants(&mut self, token: &str) -> Result<(), String> {
        match self.take(token) {
            true => Ok(()),
            false => Err(format!("no {token}: {}", self.rest)),
        }
    }

    fn number(&mut self) -> Result<Json, String> {
        let start = self.rest;
        let minus = self.take("-");
        let whole = self.digits()?;
        if whole.starts_with('0') && whole.len() > 1 {
            return Err(format!("a leading zero: {whole}"));
        }
        let point = self.take(".");
        if point {
            self.digits()?;
        }
        let power = self.take("e") || self.take("E");
        if power {
            let _sign = self.take("+") || self.take("-");
            self.digits()?;
        }
        let text = &start[..start.len() - self.rest.len()];
        let error = |e: &dyn std::fmt::Display| format!("{text}: {e}");
        match minus || point || power {
            true => text.parse().map(Json::Fraction).map_err(|e| error(&e)),
            false => text.parse().map(Json::Number).map_err(|e| error(&e)),
        }
    }

    fn digits(&mut self) -> Result<&str, String> {
        let end = self.rest.find(|c: char| !c.is_ascii_digit());
        let (digits, rest) = self.rest.split_at(end.unwrap_or(self.rest.len()));
        self.rest = rest;
        match digits {
            "" => Err(format!("no digit: {rest}")),
            digits => Ok(digits),
        }
    }

    fn array(&mut self) -> Result<Json, String> {
        let mut values = Vec::new();
        self.wants("[")?;
        self.blanks();
        if self.take("]") {
            return Ok(Json::Array(values));
        }
        loop {
            values.push(self.value()?);
            if self.take("]") {
                return Ok(Json::Array(values));
            }
            self.wants(",")?;
        }
    }

    fn object(&mut self) -> Result<Json, String> {
        let mut members = BTreeMap::new();
        self.wants("{")?;
        self.blanks();
        if self.take("}") {
            return Ok(Json::Object(members));
        }
        loop {
            self.blanks();
            let key = self.string()?;
            self.blanks();
            self.wants(":")?;
            let value = self.value()?;
            if members.insert(key.clone(), value).is_some() {
                return Err(format!("twice: {key}"));
            }
            if self.take("}") {
                return Ok(Json::Object(members));
            }
            self.wants(",")?;
        }
    }

    fn string(&mut self) -> Result<String, String> {
        let mut text = String::new();
        self.wants("\"")?;
        loop {
            let next = self.next()?;
            match next {
                '"' => return Ok(text),
                '\\' => text.push(self.escaped()?),
                '\0'..='\x1f' => return Err(format!("a bare control character {next:?}")),
                next => text.push(next),
            }
        }
    }

    fn next(&mut self) -> Result<char, String> {
        let next = self
            .rest
            .chars()
            .next()
            .ok_or("the text ends in a string")?;
        self.rest = &self.rest[next.len_utf8()..];
        Ok(next)
    }

    fn escaped(&mut self) -> Result<char, String> {
        match self.next()? {
            same @ ('"' | '\\' | '/') => Ok(same),
            'b' => Ok('\x08'),
            'f' => Ok('\x0c'),
            'n' => Ok('\n'),
            'r' => Ok('\r'),
            't' => Ok('\t'),
            'u' => self.unit().and_then(|unit| self.character(unit)),
            other => Err(format!("no escape: \\{other}")),
        }
    }

    /// The character of a 16-bit unit, with the second half of a pair where it wants one.
    fn character(&mut self, unit: u16) -> Result<char, String> {
        let mut units = vec![unit];
        if (0xd800..0xdc00).contains(&unit) {
            self.wants("\\u")?;
            units.push(self.unit()?);
        }
        let character = char::decode_utf16(units).next().ok_or("no unit")?;
        character.map_err(|error| error.to_string())
    }

    fn unit(&mut self) -> Result<u16, String> {
        let digits = self.rest.get(..4).ok_or("fewer than four digits")?;
        if !digits.bytes().all(|b| b.is_ascii_hexdigit()) {
            return Err(format!("no four digits: {digits}"));
        }
        self.rest = &self.rest[4..];
        u16::from_str_radix(digits, 16).map_err(|error| error.to_string())
    }
}
