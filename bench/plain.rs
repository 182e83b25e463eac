//! What bench/procedures.py compares with: a plain interpreter and a plain parser in Rust, with no proof and no limits.
//!
//! `plain spin` runs four nested loops over the rows of a table, 100,000 steps, as a tree of statements; each loop records the rows of its
//! read, and binds each row. `plain parse FILE` reads a table and a procedure of assignments into trees. Both print seconds.
use std::collections::BTreeMap;
use std::time::Instant;

#[derive(Clone)]
#[allow(dead_code)]
enum Value {
    Int(i64),
    Text(String),
}

enum Term {
    Value(i64),
    Var(usize),
}

enum Statement {
    For { slot: usize, low: Term, high: Term, body: Vec<Statement> },
}

type Row = Vec<Value>;

struct Run<'a> {
    table: &'a BTreeMap<i64, Row>,
    slots: Vec<Option<Row>>,
    arguments: Vec<i64>,
    reads: Vec<(i64, i64, Vec<Row>)>,
    steps: u32,
}

impl Run<'_> {
    fn value(&self, term: &Term) -> i64 {
        match term {
            Term::Value(value) => *value,
            Term::Var(slot) => self.arguments[*slot],
        }
    }

    fn tick(&mut self) -> Option<()> {
        if self.steps >= 100_000 {
            return None;
        }
        self.steps += 1;
        Some(())
    }

    fn block(&mut self, block: &[Statement]) -> Option<()> {
        for statement in block {
            self.tick()?;
            let Statement::For { slot, low, high, body } = statement;
            let (low, high) = (self.value(low), self.value(high));
            let rows: Vec<Row> = self.table.range(low..=high).map(|(_, row)| row.clone()).collect();
            self.reads.push((low, high, rows.clone()));
            for row in rows {
                self.tick()?;
                self.slots[*slot] = Some(row);
                self.block(body)?;
            }
        }
        Some(())
    }
}

fn nested(depth: usize) -> Vec<Statement> {
    if depth == 4 {
        return Vec::new();
    }
    vec![Statement::For { slot: depth, low: Term::Value(1), high: Term::Var(depth), body: nested(depth + 1) }]
}

fn spin() -> f64 {
    let table: BTreeMap<i64, Row> =
        (1..=35).map(|n| (n, vec![Value::Int(n), Value::Text("ann".to_string()), Value::Int(n)])).collect();
    let body = nested(0);
    let begin = Instant::now();
    for _ in 0..20 {
        let mut run =
            Run { table: &table, slots: vec![None; 4], arguments: vec![9, 23, 13, 35], reads: Vec::new(), steps: 0 };
        assert!(run.block(&body).is_some() && run.steps == 100_000);
        std::hint::black_box(&run.reads);
    }
    begin.elapsed().as_secs_f64()
}

#[derive(Debug, PartialEq, Clone)]
enum Token {
    Word(String),
    Int(i64),
    Sign(char),
}

fn tokens(text: &str) -> Vec<(Token, u32)> {
    let bytes = text.as_bytes();
    let (mut at, mut line, mut made) = (0, 1, Vec::new());
    while at < bytes.len() {
        let start = at;
        match bytes[at] {
            b'\n' => {
                line += 1;
                at += 1;
            }
            b' ' | b'\t' => at += 1,
            b'a'..=b'z' => {
                while at < bytes.len() && (bytes[at].is_ascii_alphanumeric() || bytes[at] == b'_') {
                    at += 1;
                }
                made.push((Token::Word(text[start..at].to_string()), line));
            }
            b'0'..=b'9' => {
                while at < bytes.len() && bytes[at].is_ascii_digit() {
                    at += 1;
                }
                made.push((Token::Int(text[start..at].parse().unwrap()), line));
            }
            other => {
                made.push((Token::Sign(other as char), line));
                at += 1;
            }
        }
    }
    made
}

#[allow(dead_code)]
enum Expr {
    Int(i64, u32),
    Name(String, u32),
    Two(char, Box<Expr>, Box<Expr>),
}

fn atom(tokens: &[(Token, u32)], at: &mut usize) -> Expr {
    let (token, line) = &tokens[*at];
    *at += 1;
    match token {
        Token::Int(value) => Expr::Int(*value, *line),
        Token::Word(name) => Expr::Name(name.clone(), *line),
        Token::Sign(_) => panic!("an expression was wanted"),
    }
}

fn sum(tokens: &[(Token, u32)], at: &mut usize) -> Expr {
    let mut left = atom(tokens, at);
    while let Token::Sign(sign @ ('+' | '-')) = tokens[*at].0 {
        *at += 1;
        left = Expr::Two(sign, Box::new(left), Box::new(atom(tokens, at)));
    }
    left
}

fn parse(text: &str) -> Vec<(String, Expr)> {
    let tokens = tokens(text);
    let mut at = tokens.iter().position(|(token, _)| *token == Token::Sign('{')).unwrap() + 1;
    let mut made = Vec::new();
    while tokens[at].0 != Token::Sign('}') {
        if tokens[at].0 == Token::Word("let".to_string()) {
            at += 1;
        }
        let Token::Word(name) = tokens[at].0.clone() else { panic!("a name was wanted") };
        at += 2;
        let value = sum(&tokens, &mut at);
        made.push((name, value));
        at += 1;
    }
    made
}

fn main() {
    let words: Vec<String> = std::env::args().collect();
    match words[1].as_str() {
        "spin" => println!("{:.4}", spin()),
        _ => {
            let text = std::fs::read_to_string(&words[2]).unwrap();
            let begin = Instant::now();
            let made = parse(&text);
            println!("{:.4}", begin.elapsed().as_secs_f64());
            assert!(made.len() > 1);
        }
    }
}
