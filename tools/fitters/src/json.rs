//! Reading JSON back: enough for the command's own manifests, and no trust in them.

/// A value; numbers and constants are kept as they stand.
#[derive(Debug, PartialEq)]
pub enum Json {
    Text(Vec<u8>),
    List(Vec<Json>),
    Object(Vec<(Vec<u8>, Json)>),
    Plain(String),
}

/// Values inside values go no deeper.
const DEEPEST: usize = 16;

impl Json {
    pub fn parse(text: &[u8]) -> Option<Json> {
        let mut reader = Reader { text, at: 0 };
        let value = reader.value(0)?;
        reader.space();
        (reader.at == text.len()).then_some(value)
    }

    pub fn get(&self, name: &str) -> Option<&Json> {
        match self {
            Json::Object(fields) => fields
                .iter()
                .find(|(field, _)| field == name.as_bytes())
                .map(|(_, value)| value),
            _ => None,
        }
    }

    pub fn list(&self) -> &[Json] {
        match self {
            Json::List(values) => values,
            _ => &[],
        }
    }

    pub fn text(&self) -> Option<&[u8]> {
        match self {
            Json::Text(text) => Some(text),
            _ => None,
        }
    }
}

struct Reader<'a> {
    text: &'a [u8],
    at: usize,
}

impl Reader<'_> {
    fn space(&mut self) {
        while self.text.get(self.at).is_some_and(u8::is_ascii_whitespace) {
            self.at += 1;
        }
    }

    /// The next byte after white space.
    fn next(&mut self) -> Option<u8> {
        self.space();
        self.text.get(self.at).copied()
    }

    fn take(&mut self, byte: u8) -> Option<()> {
        (self.next()? == byte).then(|| self.at += 1)
    }

    fn value(&mut self, depth: usize) -> Option<Json> {
        if depth > DEEPEST {
            return None;
        }
        match self.next()? {
            b'"' => self.string().map(Json::Text),
            b'[' => self
                .inside(b']', |reader| reader.value(depth + 1))
                .map(Json::List),
            b'{' => self
                .inside(b'}', |reader| {
                    reader.space();
                    let name = reader.string()?;
                    reader.take(b':')?;
                    Some((name, reader.value(depth + 1)?))
                })
                .map(Json::Object),
            _ => self.plain(),
        }
    }

    /// What stands between brackets, parted by commas.
    fn inside<T>(
        &mut self,
        end: u8,
        mut item: impl FnMut(&mut Self) -> Option<T>,
    ) -> Option<Vec<T>> {
        self.at += 1;
        let mut items = Vec::new();
        if self.next()? == end {
            self.at += 1;
            return Some(items);
        }
        loop {
            items.push(item(self)?);
            match self.next()? {
                b',' => self.at += 1,
                byte if byte == end => {
                    self.at += 1;
                    return Some(items);
                }
                _ => return None,
            }
        }
    }

    fn plain(&mut self) -> Option<Json> {
        let rest = &self.text[self.at..];
        let plain = |byte: &u8| byte.is_ascii_alphanumeric() || b"+-.".contains(byte);
        let length = rest.iter().take_while(|byte| plain(byte)).count();
        self.at += length;
        let text = String::from_utf8(rest[..length].to_vec()).ok()?;
        (length > 0).then_some(Json::Plain(text))
    }

    fn string(&mut self) -> Option<Vec<u8>> {
        self.take(b'"')?;
        let mut out = Vec::new();
        loop {
            let byte = *self.text.get(self.at)?;
            self.at += 1;
            match byte {
                b'"' => return Some(out),
                b'\\' => self.escape(&mut out)?,
                byte => out.push(byte),
            }
        }
    }

    fn escape(&mut self, out: &mut Vec<u8>) -> Option<()> {
        let byte = *self.text.get(self.at)?;
        self.at += 1;
        match byte {
            b'u' => {
                let unit = self.unit()?;
                match unit {
                    // A byte that is no text.
                    0xdc80..=0xdcff => out.push(unit as u8),
                    0xd800..=0xdbff => {
                        if self.text.get(self.at..self.at + 2)? != b"\\u" {
                            return None;
                        }
                        self.at += 2;
                        let low = self.unit()?;
                        let letter = char::decode_utf16([unit as u16, low as u16]).next()?.ok()?;
                        out.extend(letter.encode_utf8(&mut [0; 4]).as_bytes());
                    }
                    _ => out.extend(char::from_u32(unit)?.encode_utf8(&mut [0; 4]).as_bytes()),
                }
            }
            b'n' => out.push(b'\n'),
            b't' => out.push(b'\t'),
            b'r' => out.push(b'\r'),
            b'b' => out.push(8),
            b'f' => out.push(12),
            b'"' | b'\\' | b'/' => out.push(byte),
            _ => return None,
        }
        Some(())
    }

    fn unit(&mut self) -> Option<u32> {
        let digits = self.text.get(self.at..self.at + 4)?;
        self.at += 4;
        u32::from_str_radix(std::str::from_utf8(digits).ok()?, 16).ok()
    }
}

#[cfg(test)]
mod tests {
    use super::Json;

    #[test]
    fn names_come_back() {
        let names: [&[u8]; 6] = [
            b"",
            b"a/b.pgm",
            b"\"\\\n\x1b[2J",
            b"\xff\x80x",
            "ä\u{2028}\u{1f600}".as_bytes(),
            b"\x7f",
        ];
        for name in names {
            let text = console::json(name);
            assert_eq!(
                Json::parse(text.as_bytes()),
                Some(Json::Text(name.to_vec())),
                "{text}"
            );
        }
    }

    #[test]
    fn nonsense_is_nothing() {
        let deep = "[".repeat(100_000);
        for text in [
            "",
            "{",
            "[1,]",
            "{\"a\"}",
            "\"",
            "\"\\u12\"",
            "\"\\ud800\"",
            "[1] 2",
            deep.as_str(),
        ] {
            assert_eq!(
                Json::parse(text.as_bytes()),
                None,
                "{}",
                &text[..text.len().min(9)]
            );
        }
    }
}
