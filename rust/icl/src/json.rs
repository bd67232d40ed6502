//! JSON (RFC 8259), read strictly, one step at a time, so that no text makes it call itself or hold more than it is asked for; and the quoting of a
//! text. It imports no module.

/// What is wrong with a text, and at which of its bytes, counted from 0. [`place`] tells line and column.
#[derive(Debug, PartialEq, Eq)]
pub struct Fault {
    pub at: usize,
    pub words: String,
}

impl Fault {
    pub fn new(at: usize, words: impl Into<String>) -> Fault {
        Fault { at, words: words.into() }
    }
}

/// What stands next in a text.
#[derive(Debug, PartialEq, Eq)]
pub enum Event {
    BeginList,
    EndList,
    BeginObject,
    EndObject,
    /// The name of a member; its value comes next.
    Name(String),
    Text(String),
    /// A number, as it is written.
    Number(String),
    Flag(bool),
    Null,
    /// The text is over.
    End,
}

/// The most lists and objects that may lie in one another.
const DEEPEST: usize = 16;

#[derive(Clone, Copy, PartialEq, Eq)]
enum Level {
    List,
    Object,
}

/// What may come next.
#[derive(Clone, Copy, PartialEq, Eq)]
enum Next {
    Value,
    /// Behind `[`, which may be closed at once.
    FirstValue,
    Name,
    /// Behind `{`, which may be closed at once.
    FirstName,
    /// Behind a value: a comma, or the end of what it lies in.
    Separator,
    End,
}

pub struct Reader<'j> {
    text: &'j str,
    at: usize,
    open: Vec<Level>,
    next: Next,
}

impl<'j> Reader<'j> {
    pub fn new(bytes: &'j [u8]) -> Result<Reader<'j>, Fault> {
        let text = std::str::from_utf8(bytes).map_err(|error| Fault::new(error.valid_up_to(), "this is not UTF-8"))?;
        if text.starts_with('\u{feff}') {
            return Err(Fault::new(0, "a byte order mark stands before the text, which JSON does not have"));
        }
        Ok(Reader { text, at: 0, open: Vec::new(), next: Next::Value })
    }

    /// The next event, and where it begins.
    pub fn next(&mut self) -> Result<(usize, Event), Fault> {
        let mut byte = self.after_blanks();
        if self.next == Next::Separator && byte == Some(b',') {
            self.at += 1;
            self.next = if self.is_in(Level::Object) { Next::Name } else { Next::Value };
            byte = self.after_blanks();
        }
        let at = self.at;
        let event = match (self.next, byte) {
            (Next::End, None) => Event::End,
            (Next::FirstValue | Next::Separator, Some(b']')) if self.is_in(Level::List) => self.close(Event::EndList),
            (Next::FirstName | Next::Separator, Some(b'}')) if self.is_in(Level::Object) => {
                self.close(Event::EndObject)
            }
            (Next::FirstName | Next::Name, Some(b'"')) => self.name()?,
            (Next::FirstValue | Next::Value, Some(byte)) => self.value(byte)?,
            _ => return Err(self.unexpected()),
        };
        Ok((at, event))
    }

    fn is_in(&self, level: Level) -> bool {
        self.open.last() == Some(&level)
    }

    /// The next byte that is no blank.
    fn after_blanks(&mut self) -> Option<u8> {
        let rest = self.text.as_bytes().get(self.at..).unwrap_or_default();
        self.at += rest.iter().take_while(|byte| matches!(byte, b' ' | b'\t' | b'\n' | b'\r')).count();
        self.byte()
    }

    fn byte(&self) -> Option<u8> {
        self.text.as_bytes().get(self.at).copied()
    }

    /// What is behind a whole value.
    fn behind_value(&self) -> Next {
        if self.open.is_empty() {
            Next::End
        } else {
            Next::Separator
        }
    }

    fn close(&mut self, event: Event) -> Event {
        self.at += 1;
        self.open.pop();
        self.next = self.behind_value();
        event
    }

    fn begin(&mut self, level: Level, next: Next, event: Event) -> Result<Event, Fault> {
        if self.open.len() == DEEPEST {
            return Err(Fault::new(self.at, format!("lists and objects lie more than {DEEPEST} deep in one another")));
        }
        self.at += 1;
        self.open.push(level);
        self.next = next;
        Ok(event)
    }

    fn name(&mut self) -> Result<Event, Fault> {
        let name = self.string()?;
        if self.after_blanks() != Some(b':') {
            return Err(self.wrong("a : is asked behind the name"));
        }
        self.at += 1;
        self.next = Next::Value;
        Ok(Event::Name(name))
    }

    fn value(&mut self, first: u8) -> Result<Event, Fault> {
        let event = match first {
            b'[' => return self.begin(Level::List, Next::FirstValue, Event::BeginList),
            b'{' => return self.begin(Level::Object, Next::FirstName, Event::BeginObject),
            b'"' => Event::Text(self.string()?),
            b'-' | b'0'..=b'9' => Event::Number(self.number()?),
            _ => self.word()?,
        };
        self.next = self.behind_value();
        Ok(event)
    }

    fn word(&mut self) -> Result<Event, Fault> {
        let words = [("true", Event::Flag(true)), ("false", Event::Flag(false)), ("null", Event::Null)];
        let rest = self.text.get(self.at..).unwrap_or_default();
        match words.into_iter().find(|(word, _)| rest.starts_with(word)) {
            Some((word, event)) => {
                self.at += word.len();
                Ok(event)
            }
            None => Err(self.unexpected()),
        }
    }

    /// `-`, digits without a zero before others, a fraction, an exponent.
    fn number(&mut self) -> Result<String, Fault> {
        let start = self.at;
        self.skip(|byte| byte == b'-', 1);
        match self.byte() {
            Some(b'0') => self.at += 1,
            _ => self.digits()?,
        }
        if self.skip(|byte| byte == b'.', 1) {
            self.digits()?;
        }
        if self.skip(|byte| matches!(byte, b'e' | b'E'), 1) {
            self.skip(|byte| matches!(byte, b'+' | b'-'), 1);
            self.digits()?;
        }
        Ok(self.text.get(start..self.at).unwrap_or_default().to_string())
    }

    fn digits(&mut self) -> Result<(), Fault> {
        match self.skip(|byte| byte.is_ascii_digit(), usize::MAX) {
            true => Ok(()),
            false => Err(self.wrong("a digit is asked")),
        }
    }

    /// Goes over bytes of a sort, so many at most, and tells whether there were any.
    fn skip(&mut self, is_of_sort: impl Fn(u8) -> bool, most: usize) -> bool {
        let rest = self.text.as_bytes().get(self.at..).unwrap_or_default();
        let count = rest.iter().take(most).take_while(|byte| is_of_sort(**byte)).count();
        self.at += count;
        count > 0
    }

    /// A text in quotes. Between quotes, backslashes and control characters everything stands for itself.
    fn string(&mut self) -> Result<String, Fault> {
        let mut string = String::new();
        self.at += 1;
        loop {
            let start = self.at;
            self.skip(|byte| byte != b'"' && byte != b'\\' && byte >= b' ', usize::MAX);
            string.push_str(self.text.get(start..self.at).unwrap_or_default());
            match self.byte() {
                Some(b'"') => {
                    self.at += 1;
                    return Ok(string);
                }
                Some(b'\\') => string.push(self.escaped()?),
                Some(_) => return Err(self.wrong("a control character stands in a text: it is to be escaped")),
                None => return Err(self.wrong("a \" is asked at the end of the text")),
            }
        }
    }

    fn escaped(&mut self) -> Result<char, Fault> {
        let at = self.at;
        self.at += 1;
        let character = match self.byte() {
            Some(b'"') => '"',
            Some(b'\\') => '\\',
            Some(b'/') => '/',
            Some(b'b') => '\u{8}',
            Some(b'f') => '\u{c}',
            Some(b'n') => '\n',
            Some(b'r') => '\r',
            Some(b't') => '\t',
            Some(b'u') => return self.by_number(at),
            _ => return Err(Fault::new(at, "a backslash stands before none of \" \\ / b f n r t u")),
        };
        self.at += 1;
        Ok(character)
    }

    /// `\u` and four hexadecimal digits; beyond those a pair of them (RFC 8259, 7).
    fn by_number(&mut self, at: usize) -> Result<char, Fault> {
        let first = self.four_digits(at)?;
        let is_high = (0xD800..0xDC00).contains(&first);
        let rest = self.text.get(self.at..).unwrap_or_default();
        if !is_high || !rest.starts_with("\\u") {
            return char::from_u32(first).ok_or_else(|| Fault::new(at, "half of a pair of \\u"));
        }
        self.at += 1;
        let second = self.four_digits(at)?;
        let low = second.checked_sub(0xDC00).filter(|low| *low < 0x400);
        let pair = low.and_then(|low| char::from_u32(0x10000 + ((first - 0xD800) << 10) + low));
        pair.ok_or_else(|| Fault::new(at, "half of a pair of \\u"))
    }

    /// The number behind a `u`.
    fn four_digits(&mut self, at: usize) -> Result<u32, Fault> {
        let digits = self.text.get(self.at + 1..self.at + 5);
        let number = digits.filter(|digits| digits.bytes().all(|byte| byte.is_ascii_hexdigit()));
        let number = number.and_then(|digits| u32::from_str_radix(digits, 16).ok());
        self.at += 5;
        number.ok_or_else(|| Fault::new(at, "four hexadecimal digits are asked behind \\u"))
    }

    fn unexpected(&self) -> Fault {
        self.wrong(match (self.next, self.is_in(Level::List)) {
            (Next::Value, _) => "a value is asked",
            (Next::FirstValue, _) => "a value or ] is asked",
            (Next::Name, _) => "a name in quotes is asked",
            (Next::FirstName, _) => "a name in quotes or } is asked",
            (Next::Separator, true) => "a comma or ] is asked",
            (Next::Separator, false) => "a comma or } is asked",
            (Next::End, _) => "nothing may follow",
        })
    }

    /// A fault where the reading stands.
    fn wrong(&self, asked: &str) -> Fault {
        let found = self.text.get(self.at..).and_then(|rest| rest.chars().next());
        let found = match found {
            Some(character) if character.is_control() => format!("found {}", character.escape_default()),
            Some(character) => format!("found {character}"),
            None => "the text ends".to_string(),
        };
        Fault::new(self.at, format!("{asked}, and {found}"))
    }
}

/// The line and the column of a byte, both from 1, the column in characters.
pub fn place(text: &[u8], at: usize) -> (usize, usize) {
    let before = text.get(..at).unwrap_or(text);
    let line = before.iter().filter(|byte| **byte == b'\n').count();
    let start = before.iter().rposition(|byte| *byte == b'\n').map_or(0, |end| end + 1);
    // In UTF-8 every character has one byte that does not continue another.
    let column = before.get(start..).unwrap_or_default().iter().filter(|byte| **byte & 0xC0 != 0x80).count();
    (line + 1, column + 1)
}

/// A text as JSON has it.
pub fn quoted(text: &str) -> String {
    let mut quoted = String::from('"');
    for character in text.chars() {
        match character {
            '"' | '\\' => quoted.extend(['\\', character]),
            '\u{0}'..='\u{1f}' => quoted.push_str(&format!("\\u{:04x}", u32::from(character))),
            _ => quoted.push(character),
        }
    }
    quoted.push('"');
    quoted
}

#[cfg(test)]
mod tests {
    use super::*;

    /// All events of a text but the last, or the first fault.
    fn events(text: &[u8]) -> Result<Vec<Event>, Fault> {
        let mut reader = Reader::new(text)?;
        let mut events = Vec::new();
        loop {
            match reader.next()?.1 {
                Event::End => return Ok(events),
                event => events.push(event),
            }
        }
    }

    /// The one text that a text holds.
    fn string(text: &str) -> Option<String> {
        match events(text.as_bytes()).ok()?.as_slice() {
            [Event::Text(string)] => Some(string.clone()),
            _ => None,
        }
    }

    #[test]
    fn what_is_json() {
        use Event::*;
        let text = "\t[ {\"a\" : \"b\", \"c\":[true,false ,null]},\r\n-0.5e+10 , {} , [ ] ]\n ";
        let name = |name: &str| Name(name.to_string());
        let expected = [
            [BeginList, BeginObject, name("a"), Text("b".to_string()), name("c"), BeginList].into_iter().collect(),
            vec![Flag(true), Flag(false), Null, EndList, EndObject, Number("-0.5e+10".to_string())],
            vec![BeginObject, EndObject, BeginList, EndList, EndList],
        ]
        .into_iter()
        .flatten()
        .collect::<Vec<_>>();
        assert_eq!(events(text.as_bytes()), Ok(expected));
        for text in ["0", "-0", "10", "1e5", "1E-5", "0.10", "1.5e+0", "\"\"", "true", " null", "[[[]]]", "{\"\":1}"] {
            assert!(events(text.as_bytes()).is_ok(), "{text}");
        }
        let deep = "[".repeat(DEEPEST) + &"]".repeat(DEEPEST);
        assert!(events(deep.as_bytes()).is_ok());
    }

    #[test]
    fn what_is_not() {
        let cases: [(&str, usize, &str); 36] = [
            ("", 0, "a value is asked, and the text ends"),
            (" ", 1, "a value is asked, and the text ends"),
            ("[", 1, "a value or ] is asked, and the text ends"),
            ("[1", 2, "a comma or ] is asked, and the text ends"),
            ("[1,]", 3, "a value is asked, and found ]"),
            ("[,1]", 1, "a value or ] is asked, and found ,"),
            ("[1 2]", 3, "a comma or ] is asked, and found 2"),
            ("[1}", 2, "a comma or ] is asked, and found }"),
            ("{", 1, "a name in quotes or } is asked, and the text ends"),
            ("{]", 1, "a name in quotes or } is asked, and found ]"),
            ("{\"a\"}", 4, "a : is asked behind the name, and found }"),
            ("{\"a\":}", 5, "a value is asked, and found }"),
            ("{\"a\":1,}", 7, "a name in quotes is asked, and found }"),
            ("{\"a\":1", 6, "a comma or } is asked, and the text ends"),
            ("{a:1}", 1, "a name in quotes or } is asked, and found a"),
            ("{'a':1}", 1, "a name in quotes or } is asked, and found '"),
            ("{\"a\":1]", 6, "a comma or } is asked, and found ]"),
            ("1 1", 2, "nothing may follow, and found 1"),
            ("[] x", 3, "nothing may follow, and found x"),
            ("]", 0, "a value is asked, and found ]"),
            ("01", 1, "nothing may follow, and found 1"),
            ("-", 1, "a digit is asked, and the text ends"),
            ("+1", 0, "a value is asked, and found +"),
            (".5", 0, "a value is asked, and found ."),
            ("1.", 2, "a digit is asked, and the text ends"),
            ("1.e5", 2, "a digit is asked, and found e"),
            ("1e", 2, "a digit is asked, and the text ends"),
            ("0x1", 1, "nothing may follow, and found x"),
            ("NaN", 0, "a value is asked, and found N"),
            ("tru", 0, "a value is asked, and found t"),
            ("truer", 4, "nothing may follow, and found r"),
            ("// c\n1", 0, "a value is asked, and found /"),
            ("\"a", 2, "a \" is asked at the end of the text, and the text ends"),
            ("\"a\nb\"", 2, "a control character stands in a text: it is to be escaped, and found \\n"),
            ("\u{feff}[]", 0, "a byte order mark stands before the text, which JSON does not have"),
            ("\u{a0}[]", 0, "a value is asked, and found \u{a0}"),
        ];
        for (text, at, words) in cases {
            let fault = events(text.as_bytes()).unwrap_err();
            assert!(fault.at == at && fault.words.starts_with(words), "{text:?}: {fault:?}");
        }
        let fault = events("[".repeat(DEEPEST + 1).as_bytes()).unwrap_err();
        assert_eq!(fault, Fault::new(DEEPEST, "lists and objects lie more than 16 deep in one another"));
        assert_eq!(events(b"[\"\xFF\"]"), Err(Fault::new(2, "this is not UTF-8")));
    }

    #[test]
    fn texts_and_what_is_escaped() {
        assert_eq!(string(r#""\"\\\/\b\f\n\r\t""#).as_deref(), Some("\"\\/\u{8}\u{c}\n\r\t"));
        assert_eq!(string(r#""A\u00e9\u20AC\uD834\uDD1e\u0000!""#).as_deref(), Some("A\u{e9}\u{20ac}\u{1d11e}\0!"));
        assert_eq!(string("\"\u{e9}\u{1d11e}\u{7f}\"").as_deref(), Some("\u{e9}\u{1d11e}\u{7f}"));
        let wrong = [
            r#""\x""#,
            r#""\""#,
            r#""\u12""#,
            r#""\u12g4""#,
            r#""\u+123""#,
            r#""\uD834""#,
            r#""\uDD1E""#,
            r#""\uD834A""#,
            r#""\uD834\n""#,
            r#""\uD834\uD834""#,
            "\"\\u00\u{e9}1\"",
        ];
        for text in wrong {
            assert_eq!(string(text), None, "{text}");
        }
        for text in ["", "a\"b\\c", "\u{0}\n\u{1f} \u{7f}\u{e9}\u{1d11e}/"] {
            assert_eq!(string(&quoted(text)).as_deref(), Some(text));
        }
        assert_eq!(quoted("a\"\\\n"), "\"a\\\"\\\\\\u000a\"");
    }

    /// Every beginning of a text, and every text with one byte changed, has events or a fault within it.
    #[test]
    fn damaged_texts() {
        let whole = "[{\"a\\u00e9\": \"\u{e9}\\uD834\\uDD1E\", \"b\": -1.5e3}, true, [null]]".as_bytes();
        assert!(events(whole).is_ok());
        for end in 0..whole.len() {
            let fault = events(&whole[..end]).unwrap_err();
            assert!(fault.at <= end, "{fault:?}");
            for byte in 0..=255 {
                let mut text = whole.to_vec();
                text[end] = byte;
                assert!(events(&text).map_or_else(|fault| fault.at <= text.len(), |_| true));
            }
        }
    }

    #[test]
    fn lines_and_columns() {
        let text = "a\u{e9}b\r\n\u{20ac}c\n".as_bytes();
        assert_eq!(place(text, 0), (1, 1));
        assert_eq!(place(text, 3), (1, 3));
        assert_eq!(place(text, 6), (2, 1));
        assert_eq!(place(text, 9), (2, 2));
        assert_eq!(place(text, text.len()), (3, 1));
        assert_eq!(place(text, usize::MAX), (3, 1));
        assert_eq!(place(b"", 0), (1, 1));
    }
}
