// json.rs: reads JSON, as RFC 8259 has it and no more, so that tests see whether what the command prints is some.
use std::iter::Peekable;
use std::str::Chars;

#[derive(Clone, Debug, PartialEq)]
pub enum Json {
    Null,
    Bool(bool),
    /// As it is written.
    Number(String),
    Text(String),
    List(Vec<Json>),
    Object(Vec<(String, Json)>),
}

impl Json {
    /// The value of a whole text.
    pub fn read(text: &str) -> Json {
        let mut reader = Reader(text.chars().peekable());
        let value = reader.value();
        reader.blanks();
        assert_eq!(reader.0.next(), None, "something stands behind the value: {text}");
        value
    }

    /// The fields' names, in their order.
    pub fn names(&self) -> Vec<&str> {
        match self {
            Json::Object(fields) => fields.iter().map(|(name, _)| name.as_str()).collect(),
            other => panic!("no object: {other:?}"),
        }
    }

    /// A field, which stands once.
    pub fn get(&self, wanted: &str) -> &Json {
        let Json::Object(fields) = self else { panic!("no object: {self:?}") };
        let mut found = fields.iter().filter(|(name, _)| name == wanted);
        match (found.next(), found.next()) {
            (Some((_, value)), None) => value,
            _ => panic!("not one field {wanted}: {self:?}"),
        }
    }

    pub fn text(&self) -> &str {
        let (Json::Text(text) | Json::Number(text)) = self else { panic!("neither a string nor a number: {self:?}") };
        text
    }

    pub fn list(&self) -> &[Json] {
        let Json::List(items) = self else { panic!("no list: {self:?}") };
        items
    }
}

struct Reader<'t>(Peekable<Chars<'t>>);

impl Reader<'_> {
    fn blanks(&mut self) {
        while self.0.next_if(|next| matches!(next, ' ' | '\t' | '\n' | '\r')).is_some() {}
    }

    fn take(&mut self, wanted: &str) {
        for character in wanted.chars() {
            assert_eq!(self.0.next(), Some(character), "of {wanted}");
        }
    }

    fn value(&mut self) -> Json {
        self.blanks();
        match self.0.peek() {
            Some('n') => (self.take("null"), Json::Null).1,
            Some('t') => (self.take("true"), Json::Bool(true)).1,
            Some('f') => (self.take("false"), Json::Bool(false)).1,
            Some('"') => Json::Text(self.string()),
            Some('[') => Json::List(self.items('[', ']', Reader::value)),
            Some('{') => Json::Object(self.items('{', '}', Reader::field)),
            _ => Json::Number(self.number()),
        }
    }

    fn items<T>(&mut self, open: char, close: char, one: impl Fn(&mut Self) -> T) -> Vec<T> {
        self.take(&open.to_string());
        let mut items = Vec::new();
        self.blanks();
        if self.0.next_if_eq(&close).is_some() {
            return items;
        }
        loop {
            items.push(one(self));
            self.blanks();
            match self.0.next() {
                Some(',') => {}
                Some(end) if end == close => return items,
                other => panic!("neither a comma nor {close}: {other:?}"),
            }
        }
    }

    fn field(&mut self) -> (String, Json) {
        self.blanks();
        let name = self.string();
        self.blanks();
        self.take(":");
        (name, self.value())
    }

    fn string(&mut self) -> String {
        self.take("\"");
        let mut text = String::new();
        loop {
            match self.0.next().expect("a string has an end") {
                '"' => return text,
                '\\' => text.push(self.escaped()),
                character => {
                    assert!(character >= ' ', "a control character in a string: {character:?}");
                    text.push(character);
                }
            }
        }
    }

    fn escaped(&mut self) -> char {
        match self.0.next() {
            Some(character @ ('"' | '\\' | '/')) => character,
            Some('u') => {
                let digits: String = (0..4).map(|_| self.0.next().expect("four digits")).collect();
                char::from_u32(u32::from_str_radix(&digits, 16).expect("hexadecimal")).expect("no half of a pair")
            }
            other => panic!("an escape that the command does not use: {other:?}"),
        }
    }

    fn digits(&mut self) -> String {
        let mut digits = String::new();
        while let Some(digit) = self.0.next_if(char::is_ascii_digit) {
            digits.push(digit);
        }
        assert!(!digits.is_empty(), "digits are missing before {:?}", self.0.peek());
        digits
    }

    fn number(&mut self) -> String {
        let mut number = String::new();
        number.extend(self.0.next_if_eq(&'-'));
        let whole = self.digits();
        assert!(whole == "0" || !whole.starts_with('0'), "a number with a zero in front: {whole}");
        number.push_str(&whole);
        if let Some(point) = self.0.next_if_eq(&'.') {
            number.push(point);
            number.push_str(&self.digits());
        }
        if let Some(exponent) = self.0.next_if(|next| matches!(next, 'e' | 'E')) {
            number.push(exponent);
            number.extend(self.0.next_if(|next| matches!(next, '+' | '-')));
            number.push_str(&self.digits());
        }
        number
    }
}
