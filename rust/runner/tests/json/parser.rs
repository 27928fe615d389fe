//! A small parser of JSON, strict, so that what the program prints is held to the standard (RFC 8259).

use std::iter::Peekable;
use std::str::Chars;

#[derive(Clone, Debug, PartialEq)]
pub enum Value {
    Null,
    Bool(bool),
    /// The program prints no other numbers than these.
    Number(u64),
    Text(String),
    List(Vec<Value>),
    Object(Vec<(String, Value)>),
}

impl Value {
    /// The member of an object.
    #[track_caller]
    pub fn get(&self, name: &str) -> &Value {
        let Value::Object(members) = self else {
            panic!("{name} of what is no object: {self:?}");
        };
        let member = members.iter().find(|(known, _)| known == name);
        &member.unwrap_or_else(|| panic!("no {name} in {self:?}")).1
    }

    #[track_caller]
    pub fn keys(&self) -> Vec<&str> {
        let Value::Object(members) = self else {
            panic!("no object: {self:?}");
        };
        members.iter().map(|(name, _)| name.as_str()).collect()
    }

    #[track_caller]
    pub fn list(&self) -> &[Value] {
        match self {
            Value::List(values) => values,
            _ => panic!("no list: {self:?}"),
        }
    }

    #[track_caller]
    pub fn text(&self) -> &str {
        match self {
            Value::Text(text) => text,
            _ => panic!("no text: {self:?}"),
        }
    }

    #[track_caller]
    pub fn number(&self) -> u64 {
        match self {
            Value::Number(number) => *number,
            _ => panic!("no number: {self:?}"),
        }
    }

    /// Text of two hexadecimal digits a byte.
    #[track_caller]
    pub fn bytes(&self) -> Vec<u8> {
        let digits = self.text().as_bytes();
        let value = |pair: &[u8]| {
            let text = std::str::from_utf8(pair).expect("digits are text");
            u8::from_str_radix(text, 16).expect("digits are hexadecimal")
        };
        assert_eq!(digits.len() % 2, 0);
        digits.chunks(2).map(value).collect()
    }

    /// Text of 16 hexadecimal digits.
    #[track_caller]
    pub fn address(&self) -> u64 {
        assert_eq!(self.text().len(), 16);
        u64::from_str_radix(self.text(), 16).expect("an address is hexadecimal")
    }
}

/// The value that a text is, with nothing after it but blanks.
pub fn parse(text: &str) -> Result<Value, String> {
    let mut parser = Parser(text.chars().peekable());
    let value = parser.value()?;
    parser.blanks();
    match parser.0.next() {
        None => Ok(value),
        Some(c) => Err(format!("'{c}' after the end")),
    }
}

struct Parser<'a>(Peekable<Chars<'a>>);

impl Parser<'_> {
    fn blanks(&mut self) {
        while self.0.next_if(|c| " \t\r\n".contains(*c)).is_some() {}
    }

    fn expect(&mut self, text: &str) -> Result<(), String> {
        for c in text.chars() {
            if self.0.next() != Some(c) {
                return Err(format!("no '{text}'"));
            }
        }
        Ok(())
    }

    fn value(&mut self) -> Result<Value, String> {
        self.blanks();
        match self.0.peek().copied() {
            Some('n') => self.expect("null").map(|()| Value::Null),
            Some('t') => self.expect("true").map(|()| Value::Bool(true)),
            Some('f') => self.expect("false").map(|()| Value::Bool(false)),
            Some('"') => self.string().map(Value::Text),
            Some('[') => self.items('[', ']', Parser::value).map(Value::List),
            Some('{') => self.object(),
            Some('0'..='9') => self.digits(),
            other => Err(format!("no value begins with {other:?}")),
        }
    }

    /// Items with commas between them, and none after the last.
    fn items<T>(
        &mut self,
        open: char,
        close: char,
        item: impl Fn(&mut Self) -> Result<T, String>,
    ) -> Result<Vec<T>, String> {
        self.expect(&open.to_string())?;
        self.blanks();
        let mut items = Vec::new();
        if self.0.next_if_eq(&close).is_some() {
            return Ok(items);
        }
        loop {
            items.push(item(self)?);
            self.blanks();
            match self.0.next() {
                Some(',') => {}
                Some(c) if c == close => return Ok(items),
                other => return Err(format!("{other:?} after an item")),
            }
        }
    }

    fn object(&mut self) -> Result<Value, String> {
        let members = self.items('{', '}', |parser| {
            parser.blanks();
            let name = parser.string()?;
            parser.blanks();
            parser.expect(":")?;
            Ok((name, parser.value()?))
        })?;
        for (i, (name, _)) in members.iter().enumerate() {
            if members[..i].iter().any(|(before, _)| before == name) {
                return Err(format!("{name} stands twice"));
            }
        }
        Ok(Value::Object(members))
    }

    fn string(&mut self) -> Result<String, String> {
        self.expect("\"")?;
        let mut text = String::new();
        loop {
            match self.0.next().ok_or("the text does not end")? {
                '"' => return Ok(text),
                '\\' => text.push(self.escape()?),
                c if c < ' ' => return Err(format!("{c:?} in a text")),
                c => text.push(c),
            }
        }
    }

    fn escape(&mut self) -> Result<char, String> {
        match self.0.next() {
            Some(c @ ('"' | '\\' | '/')) => Ok(c),
            Some('u') => {
                let digits: String = self.0.by_ref().take(4).collect();
                let hexadecimal =
                    digits.len() == 4 && digits.chars().all(|c| c.is_ascii_hexdigit());
                let code = u32::from_str_radix(&digits, 16).ok();
                let c = code.filter(|_| hexadecimal).and_then(char::from_u32);
                c.ok_or_else(|| format!("'{digits}' is no character"))
            }
            other => Err(format!("{other:?} after a backslash")),
        }
    }

    fn digits(&mut self) -> Result<Value, String> {
        let mut text = String::new();
        while let Some(digit) = self.0.next_if(|c| c.is_ascii_digit()) {
            text.push(digit);
        }
        let canonical = text == "0" || !text.starts_with('0');
        let number = text.parse().ok().filter(|number| *number < 1 << 53);
        match number.filter(|_| canonical) {
            Some(number) => Ok(Value::Number(number)),
            None => Err(format!("'{text}' is no exact number")),
        }
    }
}

mod tests {
    use super::*;

    #[test]
    fn right_texts_are_read() {
        let text = " { \"a\" : [ 1, true,null ,\"\\u0041\\\\\\\"\" ] , \"b\":{}, \"c\":[] }\n";
        let list = vec![
            Value::Number(1),
            Value::Bool(true),
            Value::Null,
            Value::Text("A\\\"".to_string()),
        ];
        let expected = vec![
            ("a".to_string(), Value::List(list)),
            ("b".to_string(), Value::Object(Vec::new())),
            ("c".to_string(), Value::List(Vec::new())),
        ];
        assert_eq!(parse(text), Ok(Value::Object(expected)));
    }

    #[test]
    fn wrong_texts_are_refused() {
        for wrong in [
            "",
            "{",
            "[1,]",
            "[1 2]",
            "[,1]",
            "{\"a\"}",
            "{\"a\":}",
            "{\"a\":1,}",
            "{a:1}",
            "01",
            "-1",
            "1e3",
            "1.5",
            "9007199254740992",
            "\"a",
            "\"\n\"",
            "\"\\x\"",
            "\"\\u12\"",
            "\"\\u+123\"",
            "nul",
            "[]]",
            "{\"a\":1,\"a\":2}",
            "'a'",
        ] {
            assert!(parse(wrong).is_err(), "{wrong}");
        }
    }
}
