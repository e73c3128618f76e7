//! A reader of the TOML that network files use: borrowed where it can be.
use std::borrow::Cow;

pub enum Value<'a> {
    Int(i128),
    Str(Cow<'a, str>),
    Bool(bool),
    Arr(Vec<Value<'a>>),
    Tab(Table<'a>),
}
#[derive(Default)]
pub struct Table<'a>(pub Vec<(Cow<'a, str>, Value<'a>)>);

impl<'a> Table<'a> {
    pub fn get(&self, k: &str) -> Option<&Value<'a>> {
        self.0.iter().find(|e| e.0 == k).map(|e| &e.1)
    }
    fn slot(&mut self, k: Cow<'a, str>) -> &mut Value<'a> {
        match self.0.iter().position(|e| e.0 == k) {
            Some(i) => &mut self.0[i].1,
            None => {
                self.0.push((k, Value::Tab(Table::default())));
                let n = self.0.len() - 1;
                &mut self.0[n].1
            }
        }
    }
    /// The table at a key; of an array the last one.
    fn into(&mut self, k: Cow<'a, str>) -> Option<&mut Table<'a>> {
        match self.slot(k) {
            Value::Tab(t) => Some(t),
            Value::Arr(a) => match a.last_mut() {
                Some(Value::Tab(t)) => Some(t),
                _ => None,
            },
            _ => None,
        }
    }
    fn put(&mut self, keys: Vec<Cow<'a, str>>, v: Value<'a>) -> Option<()> {
        let mut t = self;
        let n = keys.len();
        for (i, k) in keys.into_iter().enumerate() {
            if i + 1 == n {
                if t.0.iter().any(|e| e.0 == k) {
                    return None;
                }
                t.0.push((k, v));
                return Some(());
            }
            t = t.into(k)?;
        }
        None
    }
}

struct Reader<'a> {
    s: &'a str,
    b: &'a [u8],
    i: usize,
}

pub fn parse(s: &str) -> Option<Table<'_>> {
    let mut r = Reader { s, b: s.as_bytes(), i: 0 };
    let mut root = Table::default();
    let mut at: Vec<Cow<str>> = Vec::new();
    loop {
        r.blank();
        let Some(c) = r.peek() else { return Some(root) };
        if c == b'[' {
            r.i += 1;
            let many = r.peek() == Some(b'[');
            if many {
                r.i += 1;
            }
            r.gap();
            let keys = r.keys()?;
            r.eat(b']')?;
            if many {
                r.eat(b']')?;
            }
            at = keys;
            let mut t = &mut root;
            let n = at.len();
            for (i, k) in at.iter().enumerate() {
                if i + 1 == n && many {
                    if !t.0.iter().any(|e| e.0 == *k) {
                        t.0.push((k.clone(), Value::Arr(Vec::new())));
                    }
                    match t.slot(k.clone()) {
                        Value::Arr(a) => a.push(Value::Tab(Table::default())),
                        _ => return None,
                    }
                    break;
                }
                t = t.into(k.clone())?;
            }
            r.line_end()?;
        } else {
            // the keys of one table
            let mut t = &mut root;
            for k in &at {
                t = t.into(k.clone())?;
            }
            loop {
                let keys = r.keys()?;
                r.eat(b'=')?;
                r.gap();
                let v = r.value()?;
                t.put(keys, v)?;
                r.line_end()?;
                r.blank();
                match r.peek() {
                    None | Some(b'[') => break,
                    _ => {}
                }
            }
        }
    }
}

impl<'a> Reader<'a> {
    #[inline(always)]
    fn peek(&self) -> Option<u8> {
        self.b.get(self.i).copied()
    }
    #[inline(always)]
    fn gap(&mut self) {
        while let Some(b' ' | b'\t') = self.peek() {
            self.i += 1;
        }
    }
    fn comment(&mut self) {
        while !matches!(self.peek(), None | Some(b'\n')) {
            self.i += 1;
        }
    }
    /// Spaces, line ends and comments.
    #[inline]
    fn blank(&mut self) {
        loop {
            match self.peek() {
                Some(b' ' | b'\t' | b'\n' | b'\r') => self.i += 1,
                Some(b'#') => self.comment(),
                _ => return,
            }
        }
    }
    fn line_end(&mut self) -> Option<()> {
        self.gap();
        if self.peek() == Some(b'#') {
            self.comment();
        }
        if self.peek() == Some(b'\r') {
            self.i += 1;
        }
        match self.peek() {
            None => Some(()),
            Some(b'\n') => {
                self.i += 1;
                Some(())
            }
            _ => None,
        }
    }
    #[inline]
    fn eat(&mut self, c: u8) -> Option<()> {
        self.gap();
        if self.peek() == Some(c) {
            self.i += 1;
            Some(())
        } else {
            None
        }
    }
    fn key(&mut self) -> Option<Cow<'a, str>> {
        match self.peek()? {
            b'"' | b'\'' => self.text(),
            _ => {
                let from = self.i;
                while let Some(b'A'..=b'Z' | b'a'..=b'z' | b'0'..=b'9' | b'_' | b'-') = self.peek() {
                    self.i += 1;
                }
                if from == self.i {
                    return None;
                }
                Some(Cow::Borrowed(&self.s[from..self.i]))
            }
        }
    }
    fn keys(&mut self) -> Option<Vec<Cow<'a, str>>> {
        let mut out = Vec::with_capacity(1);
        loop {
            out.push(self.key()?);
            self.gap();
            if self.peek() != Some(b'.') {
                return Some(out);
            }
            self.i += 1;
            self.gap();
        }
    }
    fn text(&mut self) -> Option<Cow<'a, str>> {
        let q = self.peek()?;
        let rest = &self.b[self.i..];
        if rest.starts_with(b"\"\"\"") || rest.starts_with(b"'''") {
            self.i += 3;
            if self.peek() == Some(b'\n') {
                self.i += 1;
            }
            let from = self.i;
            while !(self.b[self.i..].starts_with(&[q, q, q])) {
                if self.i >= self.b.len() {
                    return None;
                }
                self.i += 1;
            }
            let s = &self.s[from..self.i];
            self.i += 3;
            return Some(Cow::Borrowed(s));
        }
        self.i += 1;
        let from = self.i;
        while let Some(c) = self.peek() {
            if c == q {
                let s = &self.s[from..self.i];
                self.i += 1;
                return Some(Cow::Borrowed(s));
            }
            if c < 32 && c != b'\t' {
                return None;
            }
            if c == b'\\' && q == b'"' {
                return self.escaped(from);
            }
            self.i += 1;
        }
        None
    }
    fn escaped(&mut self, from: usize) -> Option<Cow<'a, str>> {
        let mut out = String::from(&self.s[from..self.i]);
        loop {
            let c = self.s[self.i..].chars().next()?;
            self.i += c.len_utf8();
            match c {
                '"' => return Some(Cow::Owned(out)),
                '\\' => {
                    let e = self.peek()?;
                    self.i += 1;
                    let n = match e {
                        b'n' => {
                            out.push('\n');
                            continue;
                        }
                        b't' => {
                            out.push('\t');
                            continue;
                        }
                        b'r' => {
                            out.push('\r');
                            continue;
                        }
                        b'e' => {
                            out.push('\x1b');
                            continue;
                        }
                        b'"' | b'\\' => {
                            out.push(e as char);
                            continue;
                        }
                        b'x' => 2,
                        b'u' => 4,
                        b'U' => 8,
                        _ => return None,
                    };
                    let h = self.s.get(self.i..self.i + n)?;
                    out.push(char::from_u32(u32::from_str_radix(h, 16).ok()?)?);
                    self.i += n;
                }
                c => out.push(c),
            }
        }
    }
    fn value(&mut self) -> Option<Value<'a>> {
        match self.peek()? {
            b'"' | b'\'' => Some(Value::Str(self.text()?)),
            b'[' => {
                self.i += 1;
                let mut out = Vec::new();
                loop {
                    self.blank();
                    if self.peek()? == b']' {
                        self.i += 1;
                        return Some(Value::Arr(out));
                    }
                    out.push(self.value()?);
                    self.blank();
                    match self.peek()? {
                        b',' => self.i += 1,
                        b']' => {}
                        _ => return None,
                    }
                }
            }
            b'{' => {
                self.i += 1;
                let mut t = Table(Vec::with_capacity(4));
                loop {
                    self.blank();
                    if self.peek()? == b'}' {
                        self.i += 1;
                        return Some(Value::Tab(t));
                    }
                    let keys = self.keys()?;
                    self.eat(b'=')?;
                    self.blank();
                    let v = self.value()?;
                    t.put(keys, v)?;
                    self.blank();
                    match self.peek()? {
                        b',' => self.i += 1,
                        b'}' => {}
                        _ => return None,
                    }
                }
            }
            b't' if self.b[self.i..].starts_with(b"true") => {
                self.i += 4;
                Some(Value::Bool(true))
            }
            b'f' if self.b[self.i..].starts_with(b"false") => {
                self.i += 5;
                Some(Value::Bool(false))
            }
            c => {
                let neg = c == b'-';
                if c == b'-' || c == b'+' {
                    self.i += 1;
                }
                let mut radix = 10i128;
                let rest = &self.b[self.i..];
                if rest.len() > 2 && rest[0] == b'0' {
                    radix = match rest[1] {
                        b'x' => 16,
                        b'o' => 8,
                        b'b' => 2,
                        _ => 10,
                    };
                    if radix != 10 {
                        self.i += 2;
                    }
                }
                let from = self.i;
                let mut n: i128 = 0;
                while let Some(c) = self.peek() {
                    if c == b'_' {
                        self.i += 1;
                        continue;
                    }
                    let Some(d) = (c as char).to_digit(radix as u32) else { break };
                    n = n.checked_mul(radix)?.checked_add(d as i128)?;
                    self.i += 1;
                }
                if from == self.i || n > i64::MAX as i128 + neg as i128 {
                    return None;
                }
                Some(Value::Int(if neg { -n } else { n }))
            }
        }
    }
}
