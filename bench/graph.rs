// The same sequence of nodes over a `HashMap` and a `Vec` of Rust's std, for the benchmark alone.
use std::collections::HashMap;
use std::time::Instant;

#[derive(Clone, Copy, PartialEq, Eq, Hash)]
enum Word { Byte(u8), Not(u32), And(u32, u32), Or(u32, u32), Xor(u32, u32), Sum(u32, u32, u32), Diff(u32, u32, u32), Ite(u32, u32, u32) }

#[derive(Clone, Copy, PartialEq, Eq, Hash)]
enum Node { Word(Word), Pick(u32, u8) }

#[derive(Default)]
struct Graph { nodes: Vec<Node>, numbers: HashMap<Node, u32> }

impl Graph {
    fn add(&mut self, node: Node) -> u32 {
        let next = self.nodes.len() as u32;
        let number = *self.numbers.entry(node).or_insert(next);
        if number == next { self.nodes.push(node); }
        number
    }
    fn word(&mut self, word: Word) -> u32 { self.add(Node::Word(word)) }
}

fn pass(g: &mut Graph, count: u32) -> u32 {
    let word = g.word(Word::Byte(0));
    let bit = g.add(Node::Pick(word, 0));
    let (mut words, mut bits) = ([word; 256], [bit; 16]);
    let mut r: u64 = 7725;
    for at in 0..count {
        r = r.wrapping_mul(6364136223846793005).wrapping_add(1442695040888963407);
        let x = words[(r >> 56) as usize];
        if at % 8 == 7 {
            bits[((r >> 40) & 0xF) as usize] = g.add(Node::Pick(x, ((r >> 36) & 0xF) as u8));
            continue;
        }
        let y = words[((r >> 48) & 0xFF) as usize];
        let c = bits[((r >> 44) & 0xF) as usize];
        let node = match ((r >> 32) & 0xFF) % 6 {
            0 => Word::And(x, y), 1 => Word::Or(x, y), 2 => Word::Xor(x, y),
            3 => Word::Sum(x, y, c), 4 => Word::Diff(x, y, c), _ => Word::Ite(c, x, y),
        };
        words[((r >> 24) & 0xFF) as usize] = g.word(node);
    }
    g.word(Word::Not(words[(r >> 56) as usize]))
}

fn evaluate(g: &Graph, last: u32, byte: u16, slots: &mut [u32]) -> u32 {
    for at in 0..=last as usize {
        let w = |k: u32| slots[k as usize] as u16;
        let value = match g.nodes[at] {
            Node::Pick(x, m) => (w(x) >> m) & 1,
            Node::Word(word) => match word {
                Word::Byte(_) => byte, Word::Not(x) => !w(x),
                Word::And(x, y) => w(x) & w(y), Word::Or(x, y) => w(x) | w(y), Word::Xor(x, y) => w(x) ^ w(y),
                Word::Sum(x, y, c) => w(x).wrapping_add(w(y)).wrapping_add(w(c)),
                Word::Diff(x, y, c) => w(x).wrapping_sub(w(y)).wrapping_sub(w(c)),
                Word::Ite(c, x, y) => if w(c) == 1 { w(x) } else { w(y) },
            },
        };
        slots[at] = value as u32;
    }
    slots[last as usize]
}

fn main() {
    let count: u32 = std::env::args().nth(1).unwrap().parse().unwrap();
    let mut g = Graph::default();
    let start = Instant::now();
    pass(&mut g, count);
    let last = pass(&mut g, count);
    let built = start.elapsed().as_micros();
    let start = Instant::now();
    let mut slots = vec![0u32; g.nodes.len()];
    let sum: u32 = (0..16u16).map(|byte| evaluate(&g, last, byte, &mut slots)).sum();
    println!("{} {} {} {sum}", g.nodes.len(), built, start.elapsed().as_micros());
}
