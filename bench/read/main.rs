// Times Read beside a plain Rust reader that fills the same slice, on a sheet of about 4,000 bytes.
use std::time::Instant;

unsafe extern "C" {
    fn bench_read(text: *const u8, length: usize, rounds: u64) -> u64;
}

#[derive(Clone, Copy, Default)]
struct Node {
    kind: u8,
    a: u16,
    b: u16,
    c: u16,
}

#[derive(Clone, Copy, PartialEq)]
enum Word {
    Name,
    Number(u32),
    Text,
    Key(u8),
    Mark(u8),
    Becomes,
    Join,
    End,
}

#[derive(Clone, Copy)]
struct Token {
    word: Word,
    place: usize,
    next: usize,
}

type Fault = (u8, usize);

const KEYS: [&[u8]; 12] = [b"begin", b"end", b"declare", b"integer", b"string", b"if", b"then", b"else", b"fi", b"while", b"do", b"od"];

struct Reader<'a> {
    text: &'a [u8],
    nodes: &'a mut [Node],
    count: usize,
    variables: usize,
    token: Token,
}

fn allowed(b: u8) -> bool {
    b.is_ascii_alphanumeric() || b" \n\t()+-;,|:=".contains(&b)
}

fn scan(text: &[u8], from: usize) -> Result<Token, Fault> {
    let mut at = from;
    while at < text.len() && matches!(text[at], b' ' | b'\n' | b'\t') {
        at += 1;
    }
    let place = at;
    let done = |word, next| Ok(Token { word, place, next });
    if at >= text.len() {
        return done(Word::End, at);
    }
    match text[at] {
        b'a'..=b'z' | b'A'..=b'Z' => {
            while at < text.len() && text[at].is_ascii_alphanumeric() {
                at += 1;
            }
            let spelling = &text[place..at];
            for (i, k) in KEYS.iter().enumerate() {
                if *k == spelling {
                    return done(Word::Key(i as u8), at);
                }
            }
            done(Word::Name, at)
        }
        b'0'..=b'9' => {
            let mut v: u64 = 0;
            while at < text.len() && text[at].is_ascii_digit() {
                v = (v * 10 + (text[at] - b'0') as u64).min(1 << 40);
                at += 1;
            }
            if v > u32::MAX as u64 {
                return Err((15, place));
            }
            done(Word::Number(v as u32), at)
        }
        b'"' => {
            at += 1;
            while at < text.len() && allowed(text[at]) {
                at += 1;
            }
            if at >= text.len() {
                return Err((12, place));
            }
            if text[at] != b'"' {
                return Err((13, at));
            }
            if at - place - 1 > 80 {
                return Err((14, place));
            }
            done(Word::Text, at + 1)
        }
        b'|' if text.get(at + 1) == Some(&b'|') => done(Word::Join, at + 2),
        b':' if text.get(at + 1) == Some(&b'=') => done(Word::Becomes, at + 2),
        b @ (b'(' | b')' | b'+' | b'-' | b';' | b',' | b':') => done(Word::Mark(b), at + 1),
        _ => Err((11, place)),
    }
}

impl Reader<'_> {
    fn put(&mut self, kind: u8, a: usize, b: usize, c: usize) {
        if self.count < self.nodes.len() {
            self.nodes[self.count] = Node { kind, a: a as u16, b: b as u16, c: c as u16 };
        }
        self.count += 1;
    }
    fn step(&mut self) -> Result<(), Fault> {
        self.token = scan(self.text, self.token.next)?;
        Ok(())
    }
    fn unexpected(&self) -> Fault {
        if self.token.word == Word::End { (21, self.token.place) } else { (20, self.token.place) }
    }
    fn expect(&mut self, word: Word) -> Result<(), Fault> {
        if self.token.word != word {
            return Err(self.unexpected());
        }
        self.step()
    }
    fn name(&mut self) -> usize {
        let w = &self.text[self.token.place..self.token.next];
        for i in 0..self.variables.min(self.nodes.len()) {
            let n = self.nodes[i];
            if &self.text[n.a as usize..n.a as usize + n.b as usize] == w {
                return i;
            }
        }
        65535
    }
    fn variable(&mut self) -> Result<(), Fault> {
        let number = self.name();
        self.put(2, self.token.place, self.token.next - self.token.place, number);
        self.step()
    }
    fn term(&mut self) -> Result<(), Fault> {
        match self.token.word {
            Word::Name => self.variable(),
            Word::Number(v) => {
                self.put(3, v as usize & 65535, v as usize >> 16, 0);
                self.step()
            }
            Word::Text => {
                self.put(4, self.token.place + 1, self.token.next - self.token.place - 2, 0);
                self.step()
            }
            Word::Mark(b'(') => {
                self.step()?;
                self.expression()?;
                self.expect(Word::Mark(b')'))
            }
            _ => Err(self.unexpected()),
        }
    }
    fn expression(&mut self) -> Result<(), Fault> {
        self.term()?;
        loop {
            let kind = match self.token.word {
                Word::Mark(b'+') => 5,
                Word::Join => 6,
                _ => return Ok(()),
            };
            let left = self.count - 1;
            self.step()?;
            self.term()?;
            let right = self.count - 1;
            self.put(kind, left, right, 0);
        }
    }
    fn statement(&mut self) -> Result<bool, Fault> {
        match self.token.word {
            Word::Name => {
                let target = self.count;
                self.variable()?;
                self.expect(Word::Becomes)?;
                self.expression()?;
                self.put(7, target, self.count - 1, 0);
            }
            Word::Key(5) => {
                self.step()?;
                self.expression()?;
                let test = self.count - 1;
                self.expect(Word::Key(6))?;
                self.series()?;
                let first = self.count - 1;
                self.expect(Word::Key(7))?;
                self.series()?;
                let second = self.count - 1;
                self.expect(Word::Key(8))?;
                self.put(8, test, first, second);
            }
            Word::Key(9) => {
                self.step()?;
                self.expression()?;
                let test = self.count - 1;
                self.expect(Word::Key(10))?;
                self.series()?;
                let body = self.count - 1;
                self.expect(Word::Key(11))?;
                self.put(9, test, body, 0);
            }
            _ => return Ok(false),
        }
        Ok(true)
    }
    fn series(&mut self) -> Result<(), Fault> {
        if !self.statement()? {
            self.put(11, 0, 0, 0);
            return Ok(());
        }
        let first = self.count - 1;
        if self.token.word == Word::Mark(b';') {
            self.step()?;
            self.series()?;
        } else {
            self.put(11, 0, 0, 0);
        }
        self.put(10, first, self.count - 1, 0);
        Ok(())
    }
    fn sheet(&mut self) -> Result<(), Fault> {
        self.step()?;
        self.expect(Word::Key(0))?;
        self.expect(Word::Key(2))?;
        loop {
            if self.token.word != Word::Name {
                return Err(self.unexpected());
            }
            let (place, size) = (self.token.place, self.token.next - self.token.place);
            self.step()?;
            self.expect(Word::Mark(b':'))?;
            let kind = match self.token.word {
                Word::Key(3) => 1,
                Word::Key(4) => 2,
                _ => return Err(self.unexpected()),
            };
            self.step()?;
            self.put(1, place, size, kind);
            if self.token.word == Word::Mark(b',') {
                self.step()?;
            } else {
                self.expect(Word::Mark(b';'))?;
                break;
            }
        }
        self.variables = self.count;
        self.series()?;
        self.expect(Word::Key(1))?;
        if self.token.word != Word::End {
            return Err((22, self.token.place));
        }
        Ok(())
    }
}

fn read(text: &[u8], nodes: &mut [Node]) -> Result<(usize, usize), Fault> {
    nodes.fill(Node::default());
    if text.len() > 4096 {
        return Err((10, 4096));
    }
    let mut reader = Reader { text, nodes, count: 0, variables: 0, token: Token { word: Word::End, place: 0, next: 0 } };
    let answer = reader.sheet();
    let (count, variables) = (reader.count, reader.variables);
    match answer {
        Ok(()) if count <= nodes.len().min(512) => Ok((count, variables)),
        Ok(()) => {
            nodes.fill(Node::default());
            Err((23, 0))
        }
        Err(fault) => {
            nodes.fill(Node::default());
            Err(fault)
        }
    }
}

#[inline(never)]
fn plain(text: &[u8], rounds: u64) -> u64 {
    let mut nodes = [Node::default(); 512];
    let mut sum = 0u64;
    for _ in 0..rounds {
        match read(std::hint::black_box(text), &mut nodes) {
            Ok((count, _)) => sum = sum.wrapping_add(count as u64),
            Err((_, place)) => sum = sum.wrapping_add(place as u64),
        }
    }
    sum
}

fn main() {
    let mut text = String::from("begin declare verse : integer, chorus : integer, title : string, line : string;\n");
    let parts = [
        "  title := \"Harbour Lights and a Rainy Season in the old town of Rimba\";\n",
        "  line := title || \" and then the words between two parts of a medley\";\n",
        "  if chorus then line := \"one more time, everybody in the house\" else verse := verse + 1 fi;\n",
        "  while chorus do chorus := 0; line := \"the last line that the screen will show\" od;\n",
    ];
    let mut i = 0;
    while text.len() + 120 < 4000 {
        text.push_str(parts[i % 4]);
        i += 1;
    }
    text.push_str("end\n");
    let bytes = text.as_bytes();
    let rounds = 100_000;
    let (mut best_plain, mut best_proved) = (f64::MAX, f64::MAX);
    for _ in 0..3 {
        let start = Instant::now();
        let a = plain(bytes, rounds);
        best_plain = best_plain.min(start.elapsed().as_secs_f64());
        let start = Instant::now();
        let b = unsafe { bench_read(bytes.as_ptr(), bytes.len(), rounds) };
        best_proved = best_proved.min(start.elapsed().as_secs_f64());
        assert_eq!(a, b);
    }
    let per = |s: f64| s / rounds as f64 * 1e6;
    println!("{} bytes, {} readings: plain {:.2} microseconds a sheet, proved {:.2}, ratio {:.2}", bytes.len(), rounds, per(best_plain), per(best_proved), best_proved / best_plain);
}
