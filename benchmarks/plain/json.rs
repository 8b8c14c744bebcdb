//! JSON (RFC 8259), read in place and written into one buffer. Its bytes are UTF-8.

use std::borrow::Cow;

/// How many arrays and objects may be open at once within a line's object.
const MAX_DEPTH: u32 = 126;

/// A string as it stands between its quotation marks. Its escapes are tested.
#[derive(Clone, Copy)]
pub struct Text<'a> {
    raw: &'a [u8],
    has_escapes: bool,
}

impl<'a> Text<'a> {
    pub fn bytes(self) -> Cow<'a, [u8]> {
        if self.has_escapes {
            Cow::Owned(unescaped(self.raw))
        } else {
            Cow::Borrowed(self.raw)
        }
    }
}

#[cold]
fn unescaped(raw: &[u8]) -> Vec<u8> {
    let mut text = Vec::with_capacity(raw.len());
    let mut at = 0;
    while let Some(byte) = raw.get(at) {
        at += 1;
        if *byte == b'\\' {
            let (escaped, after) = escaped(raw, at).expect("an escape that was tested");
            text.extend_from_slice(escaped.encode_utf8(&mut [0; 4]).as_bytes());
            at = after;
        } else {
            text.push(*byte);
        }
    }
    text
}

/// A value. What is no text and no whole number is read where it is asked for.
#[derive(Clone, Copy)]
pub enum Value<'a> {
    Text(Text<'a>),
    Number(u64),
    Other(&'a [u8]),
}

impl<'a> Value<'a> {
    pub fn text(self) -> Option<Cow<'a, [u8]>> {
        match self {
            Value::Text(text) => Some(text.bytes()),
            Value::Number(_) | Value::Other(_) => None,
        }
    }

    pub fn number(self) -> Option<u64> {
        match self {
            Value::Number(number) => Some(number),
            Value::Text(_) | Value::Other(_) => None,
        }
    }

    /// The array of two whole numbers.
    pub fn pair(self) -> Option<(u64, u64)> {
        let mut elements = self.elements()?;
        let pair = (elements.next()?.number()?, elements.next()?.number()?);
        elements.next().is_none().then_some(pair)
    }

    pub fn elements(self) -> Option<impl Iterator<Item = Value<'a>>> {
        let Value::Other(raw @ [b'[', ..]) = self else {
            return None;
        };
        let mut reader = Reader::new(raw);
        let mut goes_on = reader.begins(b'[', b']')?;
        Some(std::iter::from_fn(move || {
            goes_on.then_some(())?;
            let element = reader.value()?;
            goes_on = reader.goes_on(b']')?;
            Some(element)
        }))
    }

    pub fn members(self) -> Option<impl Iterator<Item = (Text<'a>, Value<'a>)>> {
        let Value::Other(raw @ [b'{', ..]) = self else {
            return None;
        };
        let mut reader = Reader::new(raw);
        let mut goes_on = reader.begins(b'{', b'}')?;
        Some(std::iter::from_fn(move || {
            goes_on.then_some(())?;
            let member = (reader.name()?, reader.value()?);
            goes_on = reader.goes_on(b'}')?;
            Some(member)
        }))
    }
}

/// Lines, and how far they are read.
pub struct Reader<'a> {
    bytes: &'a [u8],
    at: usize,
}

impl<'a> Reader<'a> {
    pub fn new(bytes: &'a [u8]) -> Reader<'a> {
        Reader { bytes, at: 0 }
    }

    pub fn is_at_end(&self) -> bool {
        self.at == self.bytes.len()
    }

    /// Whether the line ends here.
    pub fn ends_line(&mut self) -> bool {
        self.takes(b'\n')
    }

    fn takes(&mut self, byte: u8) -> bool {
        self.at = after_blanks(self.bytes, self.at);
        let is_next = self.bytes.get(self.at) == Some(&byte);
        self.at += usize::from(is_next);
        is_next
    }

    /// Begins an array or an object. Whether something is in it.
    pub fn begins(&mut self, start: u8, end: u8) -> Option<bool> {
        self.takes(start).then(|| !self.takes(end))
    }

    /// Whether a comma comes next, and not the end.
    pub fn goes_on(&mut self, end: u8) -> Option<bool> {
        let at = after_blanks(self.bytes, self.at);
        let next = *self.bytes.get(at)?;
        self.at = at + 1;
        (next == b',' || next == end).then_some(next == b',')
    }

    /// A member's name, with its colon.
    pub fn name(&mut self) -> Option<Text<'a>> {
        self.takes(b'"').then_some(())?;
        let name = self.text()?;
        self.takes(b':').then_some(name)
    }

    #[inline(always)]
    pub fn value(&mut self) -> Option<Value<'a>> {
        if self.takes(b'"') {
            return self.text().map(Value::Text);
        }
        self.other_value()
    }

    #[inline(never)]
    fn other_value(&mut self) -> Option<Value<'a>> {
        if let Some((number, after)) = whole(self.bytes, self.at) {
            self.at = after;
            return Some(Value::Number(number));
        }
        let start = self.at;
        self.skip()?;
        Some(Value::Other(&self.bytes[start..self.at]))
    }

    /// A string after its first quotation mark.
    #[inline]
    fn text(&mut self) -> Option<Text<'a>> {
        let start = self.at;
        let end = first_mark(self.bytes, start)?;
        if self.bytes[end] != b'"' {
            return self.text_with_escapes();
        }
        self.at = end + 1;
        Some(Text {
            raw: &self.bytes[start..end],
            has_escapes: false,
        })
    }

    #[cold]
    fn text_with_escapes(&mut self) -> Option<Text<'a>> {
        let start = self.at;
        self.at = after_text(self.bytes, start)?;
        Some(Text {
            raw: &self.bytes[start..self.at - 1],
            has_escapes: true,
        })
    }

    /// Goes past a value.
    pub fn skip(&mut self) -> Option<()> {
        self.at = after_value(self.bytes, self.at)?;
        Some(())
    }
}

fn after_blanks(bytes: &[u8], mut at: usize) -> usize {
    while let Some(b' ' | b'\t' | b'\r') = bytes.get(at) {
        at += 1;
    }
    at
}

fn after_value(bytes: &[u8], mut at: usize) -> Option<usize> {
    // What is open, with a bit for each, the lowest for the innermost: whether it is an object.
    let (mut open, mut depth) = (0_u128, 0);
    loop {
        at = after_blanks(bytes, at);
        let first = *bytes.get(at)?;
        match first {
            b'{' | b'[' => {
                (depth < MAX_DEPTH).then_some(())?;
                at = after_blanks(bytes, at + 1);
                if *bytes.get(at)? != first + 2 {
                    open = open << 1 | u128::from(first == b'{');
                    depth += 1;
                    if first == b'{' {
                        at = after_name(bytes, at)?;
                    }
                    continue;
                }
                at += 1;
            }
            b'"' => at = after_text(bytes, at + 1)?,
            b't' => at = after_word(bytes, at, b"true")?,
            b'f' => at = after_word(bytes, at, b"false")?,
            b'n' => at = after_word(bytes, at, b"null")?,
            _ => at = after_number(bytes, at)?,
        }
        loop {
            if depth == 0 {
                return Some(at);
            }
            let is_object = open & 1 == 1;
            at = after_blanks(bytes, at);
            let next = *bytes.get(at)?;
            at += 1;
            if next == b',' {
                if is_object {
                    at = after_name(bytes, at)?;
                }
                break;
            }
            (next == if is_object { b'}' } else { b']' }).then_some(())?;
            open >>= 1;
            depth -= 1;
        }
    }
}

fn after_name(bytes: &[u8], at: usize) -> Option<usize> {
    let at = after_word(bytes, after_blanks(bytes, at), b"\"")?;
    let at = after_text(bytes, at)?;
    after_word(bytes, after_blanks(bytes, at), b":")
}

fn after_word(bytes: &[u8], at: usize, word: &[u8]) -> Option<usize> {
    bytes[at..].starts_with(word).then_some(at + word.len())
}

/// What a string that begins before `at` is followed by.
fn after_text(bytes: &[u8], mut at: usize) -> Option<usize> {
    loop {
        at = first_mark(bytes, at)?;
        match bytes[at] {
            b'"' => return Some(at + 1),
            b'\\' => at = escaped(bytes, at + 1)?.1,
            _ => return None,
        }
    }
}

/// The character of an escape, after its backslash, and where it ends.
fn escaped(bytes: &[u8], at: usize) -> Option<(char, usize)> {
    let character = match bytes.get(at)? {
        b'u' => return unicode(bytes, at + 1),
        byte @ (b'"' | b'\\' | b'/') => char::from(*byte),
        b'b' => '\u{8}',
        b'f' => '\u{c}',
        b'n' => '\n',
        b'r' => '\r',
        b't' => '\t',
        _ => return None,
    };
    Some((character, at + 1))
}

/// The character of four hexadecimal digits, or of two such escapes that are a surrogate pair.
fn unicode(bytes: &[u8], at: usize) -> Option<(char, usize)> {
    let high = four_digits(bytes, at)?;
    if !(0xd800..0xdc00).contains(&high) {
        return Some((char::from_u32(high)?, at + 4));
    }
    let at = after_word(bytes, at + 4, b"\\u")?;
    let low = four_digits(bytes, at)?.checked_sub(0xdc00)?;
    let character = char::from_u32(0x10000 + ((high - 0xd800) << 10) + low);
    Some((character.filter(|_| low < 0x400)?, at + 4))
}

fn four_digits(bytes: &[u8], at: usize) -> Option<u32> {
    let value = |digit: &u8| char::from(*digit).to_digit(16);
    let digits = bytes.get(at..at + 4)?.iter();
    digits
        .map(value)
        .try_fold(0, |so_far, digit| Some(so_far * 16 + digit?))
}

/// The number that is of digits alone and below 2^64, where there is one, and where it ends.
fn whole(bytes: &[u8], start: usize) -> Option<(u64, usize)> {
    let (mut number, mut at) = (0_u64, start);
    while let Some(digit @ b'0'..=b'9') = bytes.get(at) {
        number = number
            .wrapping_mul(10)
            .wrapping_add(u64::from(digit - b'0'));
        at += 1;
    }
    let digits = &bytes[start..at];
    let has_more = matches!(bytes.get(at), Some(b'.' | b'e' | b'E'));
    if digits.is_empty() || digits[0] == b'0' && digits.len() > 1 || has_more {
        return None;
    }
    if digits.len() > 19 {
        number = str::from_utf8(digits).ok()?.parse().ok()?;
    }
    Some((number, at))
}

/// A number has to be one of a float of 64 bits.
fn after_number(bytes: &[u8], start: usize) -> Option<usize> {
    let mut at = start + usize::from(bytes.get(start) == Some(&b'-'));
    at = match bytes.get(at) {
        Some(b'0') => at + 1,
        _ => after_digits(bytes, at)?,
    };
    // It is below ten to this power.
    let mut power = at - start;
    if bytes.get(at) == Some(&b'.') {
        at = after_digits(bytes, at + 1)?;
    }
    if let Some(b'e' | b'E') = bytes.get(at) {
        at += 1;
        let sign = bytes.get(at);
        at += usize::from(matches!(sign, Some(b'+' | b'-')));
        let digits = &bytes[at..after_digits(bytes, at)?];
        at += digits.len();
        if sign != Some(&b'-') {
            let add = |so_far: usize, digit: &u8| 999.min(so_far * 10 + usize::from(digit - b'0'));
            power += digits.iter().fold(0, add);
        }
    }
    (power <= 308 || is_finite(&bytes[start..at])).then_some(at)
}

/// One digit or more.
fn after_digits(bytes: &[u8], start: usize) -> Option<usize> {
    let mut at = start;
    while let Some(b'0'..=b'9') = bytes.get(at) {
        at += 1;
    }
    (at > start).then_some(at)
}

fn is_finite(number: &[u8]) -> bool {
    let number = str::from_utf8(number).ok().and_then(|it| it.parse().ok());
    number.is_some_and(f64::is_finite)
}

/// The place of the first byte from `at` on that ends a string's plain part: a quotation mark, a backslash or a
/// control character.
fn first_mark(bytes: &[u8], at: usize) -> Option<usize> {
    let mut rest = &bytes[at..];
    while let Some((eight, after)) = rest.split_first_chunk() {
        let marks = marks(u64::from_le_bytes(*eight));
        if marks != 0 {
            return Some(bytes.len() - rest.len() + marks.trailing_zeros() as usize / 8);
        }
        rest = after;
    }
    let is_mark = |byte: &u8| matches!(byte, b'"' | b'\\' | 0..b' ');
    Some(bytes.len() - rest.len() + rest.iter().position(is_mark)?)
}

/// Of eight bytes the high bit of each that is a mark. Those above the lowest such bit don't count.
fn marks(bytes: u64) -> u64 {
    const ONES: u64 = u64::MAX / 0xff;
    let below = |bytes: u64, end: u8| bytes.wrapping_sub(ONES * u64::from(end)) & !bytes;
    let equal = |byte: u8| below(bytes ^ (ONES * u64::from(byte)), 1);
    (below(bytes, b' ') | equal(b'"') | equal(b'\\')) & (ONES << 7)
}

/// Answers, as JSON without white space.
#[derive(Default)]
pub struct Writer(pub Vec<u8>);

impl Writer {
    /// Parts that need no escape.
    pub fn raw(&mut self, text: &str) {
        self.0.extend_from_slice(text.as_bytes());
    }

    pub fn number(&mut self, number: impl Into<u64>) {
        let mut number = number.into();
        if number < 10 {
            return self.0.push(b'0' + number as u8);
        }
        let mut digits = [0; 20];
        let mut start = digits.len();
        loop {
            start -= 1;
            digits[start] = b'0' + (number % 10) as u8;
            number /= 10;
            if number == 0 {
                break;
            }
        }
        self.0.extend_from_slice(&digits[start..]);
    }

    /// A string.
    pub fn text(&mut self, text: &[u8]) {
        self.0.push(b'"');
        let mut rest = text;
        while let Some(place) = first_mark(rest, 0) {
            self.0.extend_from_slice(&rest[..place]);
            self.escape(rest[place]);
            rest = &rest[place + 1..];
        }
        self.0.extend_from_slice(rest);
        self.0.push(b'"');
    }

    fn escape(&mut self, byte: u8) {
        match byte {
            b'"' => self.raw("\\\""),
            b'\\' => self.raw("\\\\"),
            0x8 => self.raw("\\b"),
            0xc => self.raw("\\f"),
            b'\n' => self.raw("\\n"),
            b'\r' => self.raw("\\r"),
            b'\t' => self.raw("\\t"),
            _ => self.raw(&format!("\\u{byte:04x}")),
        }
    }

    /// An array.
    pub fn list<T>(
        &mut self,
        items: impl IntoIterator<Item = T>,
        mut write: impl FnMut(&mut Writer, T),
    ) {
        self.0.push(b'[');
        for (place, item) in items.into_iter().enumerate() {
            if place > 0 {
                self.0.push(b',');
            }
            write(self, item);
        }
        self.0.push(b']');
    }

    /// An object, whose members' values `write` writes.
    pub fn members<'a, T>(
        &mut self,
        members: impl IntoIterator<Item = (&'a [u8], T)>,
        mut write: impl FnMut(&mut Writer, T),
    ) {
        self.0.push(b'{');
        for (place, (name, value)) in members.into_iter().enumerate() {
            if place > 0 {
                self.0.push(b',');
            }
            self.text(name);
            self.0.push(b':');
            write(self, value);
        }
        self.0.push(b'}');
    }
}
