// Judge beside a plain Rust twin, on a full card: 512 nodes, 64 variables, 4,096 letters.
use std::hint::black_box;
use std::time::Instant;

unsafe extern "C" {
    fn judge(card: *const u8, length: usize) -> u32;
}

fn proved(card: &[u8]) -> u32 {
    unsafe { judge(card.as_ptr(), card.len()) }
}

mod twin {
    #[derive(Clone, Copy, Default)]
    struct Node {
        kind: u8,
        a: u16,
        b: u16,
        c: u16,
    }

    const KEYWORDS: [&[u8]; 12] = [
        b"begin", b"end", b"declare", b"integer", b"string", b"if", b"then", b"else", b"fi", b"while", b"do", b"od",
    ];

    fn is_name(w: &[u8]) -> bool {
        w.first().is_some_and(u8::is_ascii_alphabetic) && w.iter().all(u8::is_ascii_alphanumeric) && !KEYWORDS.contains(&w)
    }

    fn allowed(b: u8) -> bool {
        b.is_ascii_alphanumeric() || b" \n\t()+-;,|:=".contains(&b)
    }

    fn part(letters: &[u8], x: Node) -> Option<&[u8]> {
        letters.get(x.a as usize..x.a as usize + x.b as usize)
    }

    fn formed(letters: &[u8], x: Node) -> bool {
        match x.kind {
            1 => part(letters, x).is_some_and(is_name) && (x.c == 1 || x.c == 2),
            2 => part(letters, x).is_some_and(is_name),
            4 => x.c == 0 && part(letters, x).is_some_and(|w| w.len() <= 80 && w.iter().all(|b| allowed(*b))),
            8 => true,
            11 => x.a == 0 && x.b == 0 && x.c == 0,
            _ => x.c == 0,
        }
    }

    // The arrows of a node, with the least and the largest kind that each may lead to.
    fn arrows(x: Node) -> ([(u16, u8, u8); 3], usize) {
        let n = (0, 0, 0);
        match x.kind {
            5 | 6 => ([(x.a, 2, 6), (x.b, 2, 6), n], 2),
            7 => ([(x.a, 2, 2), (x.b, 2, 6), n], 2),
            8 => ([(x.a, 2, 6), (x.b, 10, 11), (x.c, 10, 11)], 3),
            9 => ([(x.a, 2, 6), (x.b, 10, 11), n], 2),
            10 => ([(x.a, 7, 9), (x.b, 10, 11), n], 2),
            _ => ([n, n, n], 0),
        }
    }

    fn type_of(nodes: &[Node], i: u16) -> u16 {
        let x = nodes[i as usize];
        match x.kind {
            2 => nodes[x.c as usize].c,
            3 | 5 => 1,
            _ => 2,
        }
    }

    fn agree(nodes: &[Node], x: Node) -> bool {
        match x.kind {
            5 => type_of(nodes, x.a) == 1 && type_of(nodes, x.b) == 1,
            6 => type_of(nodes, x.a) == 2 && type_of(nodes, x.b) == 2,
            7 => type_of(nodes, x.a) == type_of(nodes, x.b),
            8 | 9 => type_of(nodes, x.a) == 1,
            _ => true,
        }
    }

    fn find(letters: &[u8], declared: &[Node], w: &[u8]) -> Option<usize> {
        declared.iter().position(|d| part(letters, *d) == Some(w))
    }

    fn check(letters: &[u8], nodes: &[Node], v: usize) -> Result<(), u32> {
        let n = nodes.len();
        let mut levels = [0u8; 512];
        let mut nests = [0u8; 512];
        let mut taken = [false; 512];
        for i in 0..n {
            let x = nodes[i];
            if !(1..=11).contains(&x.kind) || (x.kind == 1) != (i < v) {
                return Err(41);
            }
            if !formed(letters, x) {
                return Err(42);
            }
            let (all, count) = arrows(x);
            let all = &all[..count];
            if all.iter().any(|(to, low, high)| *to as usize >= i || !(*low..=*high).contains(&nodes[*to as usize].kind)) {
                return Err(43);
            }
            for (k, (to, _, _)) in all.iter().enumerate() {
                if taken[*to as usize] || all[..k].iter().any(|y| y.0 == *to) {
                    return Err(44);
                }
            }
            if x.kind == 1 && find(letters, &nodes[..i], part(letters, x).unwrap()).is_some() {
                return Err(45);
            }
            if x.kind == 2 {
                match find(letters, &nodes[..v], part(letters, x).unwrap()) {
                    None => return Err(46),
                    Some(k) if k != x.c as usize => return Err(47),
                    _ => {}
                }
            }
            if !agree(nodes, x) {
                return Err(48);
            }
            let (a, b, c) = (x.a as usize, x.b as usize, x.c as usize);
            let level = match x.kind {
                2..=4 => 1,
                5 | 6 => 1 + levels[a].max(levels[b]),
                _ => 0,
            };
            let nest = match x.kind {
                8 => 1 + nests[b].max(nests[c]),
                9 => 1 + nests[b],
                10 => nests[a].max(nests[b]),
                _ => 0,
            };
            if level > 32 || nest > 16 {
                return Err(49);
            }
            levels[i] = level;
            nests[i] = nest;
            for (to, _, _) in all {
                taken[*to as usize] = true;
            }
        }
        if !(10..=11).contains(&nodes[n - 1].kind) || taken[v..n - 1].iter().any(|t| !t) {
            return Err(50);
        }
        Ok(())
    }

    fn word(bytes: &[u8], i: usize) -> u16 {
        u16::from_le_bytes([bytes[i], bytes[i + 1]])
    }

    pub fn judge(card: &[u8]) -> u32 {
        if card.len() < 6 {
            return 30;
        }
        let (n, v, t) = (word(card, 0) as usize, word(card, 2) as usize, word(card, 4) as usize);
        if !(2..=512).contains(&n) || !(1..=64).contains(&v) || v >= n || t > 4096 {
            return 31;
        }
        if card.len() != 6 + 7 * n + t {
            return 32;
        }
        let mut nodes = [Node::default(); 512];
        let mut letters = [0u8; 4096];
        let (kinds, rest) = card[6..].split_at(n);
        let (fields, spelled) = rest.split_at(6 * n);
        for i in 0..n {
            nodes[i] = Node { kind: kinds[i], a: word(fields, 6 * i), b: word(fields, 6 * i + 2), c: word(fields, 6 * i + 4) };
        }
        letters[..t].copy_from_slice(spelled);
        match check(&letters[..t], &nodes[..n], v) {
            Ok(()) => 0,
            Err(number) => number,
        }
    }
}

// 64 declarations, assignments of a sum of a variable and a number to each in turn, and 4,096 letters.
fn full_card() -> Vec<u8> {
    let mut letters = Vec::new();
    let mut nodes: Vec<(u8, u16, u16, u16)> = Vec::new();
    let name = |k: usize| format!("song{:02}", k);
    for k in 0..64 {
        nodes.push((1, letters.len() as u16, 6, 1));
        letters.extend(name(k).bytes());
    }
    let mut statements = Vec::new();
    // 73 statements of five nodes, one of three, one of four, and a series node for each
    for k in 0..74 {
        let at = nodes.len() as u16;
        nodes.push((2, letters.len() as u16, 6, (k % 64) as u16));
        letters.extend(name(k % 64).bytes());
        if k == 73 {
            nodes.push((3, 7, 1, 0));
            nodes.push((7, at, at + 1, 0));
            break;
        }
        nodes.push((2, letters.len() as u16, 6, (63 - k % 64) as u16));
        letters.extend(name(63 - k % 64).bytes());
        nodes.push((3, 7, 1, 0));
        nodes.push((5, at + 1, at + 2, 0));
        nodes.push((7, at, at + 3, 0));
        statements.push(at + 4);
    }
    statements.push(nodes.len() as u16 - 1);
    let at = nodes.len() as u16;
    nodes.push((3, 1, 0, 0));
    nodes.push((11, 0, 0, 0));
    nodes.push((11, 0, 0, 0));
    nodes.push((8, at, at + 1, at + 2));
    statements.push(at + 3);
    nodes.push((11, 0, 0, 0));
    for s in statements.iter().rev() {
        let rest = nodes.len() as u16 - 1;
        nodes.push((10, *s, rest, 0));
    }
    letters.resize(4096, b' ');
    assert_eq!(nodes.len(), 512);
    let mut card = Vec::new();
    for x in [nodes.len(), 64, letters.len()] {
        card.extend((x as u16).to_le_bytes());
    }
    card.extend(nodes.iter().map(|x| x.0));
    for x in &nodes {
        for y in [x.1, x.2, x.3] {
            card.extend(y.to_le_bytes());
        }
    }
    card.extend(&letters);
    card
}

fn time(name: &str, card: &[u8], f: fn(&[u8]) -> u32) -> f64 {
    let rounds = 20_000;
    let mut best = f64::MAX;
    for _ in 0..5 {
        let start = Instant::now();
        for _ in 0..rounds {
            assert_eq!(f(black_box(card)), 0);
        }
        best = best.min(start.elapsed().as_secs_f64() / rounds as f64);
    }
    println!("{name}: {:.1} microseconds a card, {:.0} cards a second", best * 1e6, 1.0 / best);
    best
}

fn main() {
    let card = full_card();
    println!("nodes {}, bytes {}", u16::from_le_bytes([card[0], card[1]]), card.len());
    assert_eq!(proved(&card), twin::judge(&card));
    let mut damaged = card.clone();
    for i in 0..card.len() {
        damaged[i] ^= 0x15;
        assert_eq!(proved(&damaged), twin::judge(&damaged), "byte {i}");
        damaged[i] = card[i];
    }
    let twin = time("plain Rust", &card, twin::judge);
    let ours = time("proved", &card, proved);
    println!("proved / plain: {:.2}", ours / twin);
}
