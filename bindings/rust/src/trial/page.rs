//! Two pages of the crate `examples`: that of the ten kinds, `Kinds.antt`, and that of finer
//! heights, `Fine.antt`. The lists that they name and what they state of them.
//!
//! A line that is indented belongs to the one before it. A statement is three lines,
//!
//! - `pub NAME : STATED`,
//! - `unfolding ..`,
//! - `NAME = refl`,
//!
//! and what is stated has one of three forms,
//!
//! - `entries KIND LIST PLACES ≡ NUMBERS`,
//! - `entry_of KIND LIST PLACE ≡ NUMBER`,
//! - `bits KIND LIST PLACE ≡ NUMBER`.
//!
//! A point of a list is `at_level x n`, n a level, or `pt x h`, h a height in 256ths of a level. A
//! line `NAME = .. ∷ []` gives a list a name.
use super::Question;
use crate::{Kind, KindNumbers, Point};
use std::collections::HashMap;
use std::vec::IntoIter;

const FOLDER: &str = concat!(env!("CARGO_MANIFEST_DIR"), "/../../crates/examples/specs");

/// A page of the crate `examples`.
#[derive(Clone, Copy, Debug, PartialEq, Eq)]
pub enum Page {
    /// Points at levels: the original has the numbers.
    Kinds,
    /// Points at finer heights: the model has them.
    Fine,
}

impl Page {
    fn text(self) -> String {
        let path = format!("{FOLDER}/{self:?}.antt");
        std::fs::read_to_string(&path).unwrap_or_else(|e| panic!("{path}: {e}"))
    }

    /// All that the page states.
    pub fn statements(self) -> Vec<Statement> {
        statements_of(&self.text())
    }

    /// The questions of the page, each once.
    pub fn questions(self) -> Vec<Question> {
        let mut all = Vec::new();
        for statement in self.statements() {
            if !all.contains(&statement.question) {
                all.push(statement.question);
            }
        }
        all
    }
}

/// What a page states of one table of 256.
#[derive(Debug, PartialEq, Eq)]
pub struct Statement {
    pub name: String,
    pub question: Question,
    pub places: Vec<usize>,
    /// Whether the samples' bits are meant; else the entries of the byte table.
    pub of_bits: bool,
    pub values: Vec<u32>,
}

impl Statement {
    /// The values that a table has at the places.
    pub fn read_from(&self, bytes: &[u8; 256], samples: &[f32]) -> Vec<u32> {
        let value = |&v: &usize| if self.of_bits { samples[v].to_bits() } else { bytes[v].into() };
        self.places.iter().map(value).collect()
    }
}

/// All that a page's text states. It panics at a statement of another form.
pub fn statements_of(text: &str) -> Vec<Statement> {
    let lines = whole_lines(text);
    let named: HashMap<&str, &str> = lines
        .iter()
        .filter(|line| line.ends_with("[]"))
        .filter_map(|line| line.split_once(" = "))
        .map(|(name, list)| (name.trim(), list))
        .collect();
    let mut statements = Vec::new();
    for (i, line) in lines.iter().enumerate() {
        if let Some(stated) = line.strip_prefix("pub ") {
            statements.push(statement(stated, &lines[i + 1..], &named));
        }
    }
    statements
}

/// The lines without the comments, each with the indented ones behind it.
fn whole_lines(text: &str) -> Vec<String> {
    let mut lines: Vec<String> = Vec::new();
    for line in text.lines().filter(|line| !line.trim_start().starts_with("--")) {
        match lines.last_mut() {
            Some(whole) if line.starts_with(' ') => whole.push_str(line),
            _ => lines.push(line.to_owned()),
        }
    }
    lines
}

/// `NAME : STATED`, and the lines behind it.
fn statement(text: &str, behind: &[String], named: &HashMap<&str, &str>) -> Statement {
    let (name, said) = text.split_once(" : ").expect("a statement has a name");
    let name = name.trim().to_owned();
    assert!(behind[0].starts_with("unfolding "), "{text}: {}", behind[0]);
    assert_eq!(behind[1], format!("{name} = refl"), "{text}");
    let in_full = |word: &str| named.get(word).map_or(word.to_owned(), |list| format!("({list})"));
    let said: String = said.split_whitespace().map(|word| in_full(word) + " ").collect();
    let mut words = Words::of(&said);
    let form = words.next();
    let numbers = words.kind();
    let question = Question { points: words.points(), numbers };
    let places = words.numbers().into_iter().map(|v| v as usize).collect();
    words.expect("≡");
    let statement =
        Statement { name, question, places, of_bits: form == "bits", values: words.numbers() };
    assert!(["entries", "entry_of", "bits"].contains(&&*form), "{text}: no form of the page");
    assert_eq!(words.0.len(), 0, "{text}: more than a statement");
    assert_eq!(statement.places.len(), statement.values.len(), "{text}");
    statement
}

/// The words of a statement, parentheses and `∷` being words too.
struct Words(IntoIter<String>);

impl Words {
    fn of(text: &str) -> Words {
        let apart = text.replace('(', " ( ").replace(')', " ) ");
        Words(apart.split_whitespace().map(str::to_owned).collect::<Vec<_>>().into_iter())
    }

    fn next(&mut self) -> String {
        self.0.next().expect("a statement goes on")
    }

    fn expect(&mut self, word: &str) {
        assert_eq!(self.next(), word);
    }

    fn ahead(&self) -> &str {
        self.0.as_slice().first().map_or("", |w| w)
    }

    fn number(&mut self) -> u32 {
        let word = self.next().replace('_', "");
        match word.strip_prefix("0x") {
            Some(digits) => u32::from_str_radix(digits, 16).unwrap(),
            None => word.parse().unwrap_or_else(|_| panic!("{word}: not a number")),
        }
    }

    /// `(pos n)`, or `(negsuc n)` for −(n + 1).
    fn integer(&mut self) -> i16 {
        self.expect("(");
        let sign = self.next();
        let n = i16::try_from(self.number()).unwrap();
        self.expect(")");
        match &*sign {
            "pos" => n,
            "negsuc" => -1 - n,
            _ => panic!("{sign}: no sign"),
        }
    }

    /// A kind's name, or in parentheses with what it carries.
    fn kind(&mut self) -> KindNumbers {
        let carries = self.ahead() == "(";
        if carries {
            self.expect("(");
        }
        let name = self.next();
        let number = Kind::NAMES
            .iter()
            .position(|n| *n == name)
            .unwrap_or_else(|| panic!("{name}: no kind"));
        let mut kind =
            KindNumbers { number: number as u8, tension: 0, start_slope: 0, end_slope: 0 };
        match &*name {
            "Cardinal" => kind.tension = u8::try_from(self.number()).unwrap(),
            "ClampedCubic" => (kind.start_slope, kind.end_slope) = (self.integer(), self.integer()),
            _ => {}
        }
        if carries {
            self.expect(")");
        }
        kind
    }

    /// `(POINT ∷ .. ∷ [])`
    fn points(&mut self) -> Vec<Point> {
        self.expect("(");
        let mut points = Vec::new();
        while self.ahead() != "[]" {
            points.push(self.point());
            self.expect("∷");
        }
        self.expect("[]");
        self.expect(")");
        points
    }

    /// `at_level x n`, n a level, or `pt x h`, h a height.
    fn point(&mut self) -> Point {
        let form = self.next();
        let x = u8::try_from(self.number()).unwrap();
        let y = self.number();
        match &*form {
            "at_level" => Point::at_level(x, u8::try_from(y).unwrap()),
            "pt" => Point { x, height: u16::try_from(y).unwrap() },
            _ => panic!("{form}: no point"),
        }
    }

    /// One number, or a list of them with or without parentheses.
    fn numbers(&mut self) -> Vec<u32> {
        if self.ahead() == "(" {
            self.expect("(");
            let numbers = self.numbers();
            self.expect(")");
            return numbers;
        }
        let mut numbers = Vec::new();
        while self.ahead() != "[]" {
            numbers.push(self.number());
            if self.ahead() != "∷" {
                return numbers;
            }
            self.expect("∷");
        }
        self.expect("[]");
        numbers
    }
}
