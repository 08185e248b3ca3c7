//! Rattle code as far as wrong programs need it: tokens, the bodies of functions, signatures, and the variants of enums.

use std::collections::HashMap;
use std::ops::Range;

#[derive(Clone, Copy, Debug, PartialEq, Eq)]
pub enum Kind {
    Word,
    Number,
    Sign,
}

#[derive(Clone, Debug)]
pub struct Token {
    pub kind: Kind,
    pub text: String,
    pub at: Range<usize>,
}

impl Token {
    pub fn is(&self, text: &str) -> bool {
        self.text == text
    }
}

/// Signs of two characters; all others stand alone.
const PAIRS: [&str; 12] = ["==", "!=", "<=", ">=", "&&", "||", "->", "=>", "::", "..", "<<", ">>"];

pub fn tokens(text: &str) -> Vec<Token> {
    let mut found = Vec::new();
    let mut at = 0;
    while let Some(first) = text[at..].chars().next() {
        let rest = &text[at..];
        let (kind, length) = if rest.starts_with("//") {
            (None, rest.find('\n').unwrap_or(rest.len()))
        } else if rest.starts_with("/*") {
            (None, rest.find("*/").map_or(rest.len(), |end| end + 2))
        } else if rest.starts_with("b'") {
            (Some(Kind::Number), 2 + rest[3..].find('\'').map_or(0, |end| end + 2))
        } else if first.is_ascii_digit() {
            (Some(Kind::Number), run_of(rest, |c| c.is_ascii_alphanumeric() || c == '_'))
        } else if first.is_alphabetic() || first == '_' {
            (Some(Kind::Word), run_of(rest, |c| c.is_alphanumeric() || c == '_'))
        } else if first.is_whitespace() {
            (None, first.len_utf8())
        } else if PAIRS.iter().any(|pair| rest.starts_with(pair)) {
            (Some(Kind::Sign), 2)
        } else {
            (Some(Kind::Sign), first.len_utf8())
        };
        if let Some(kind) = kind {
            found.push(Token { kind, text: rest[..length].to_string(), at: at..at + length });
        }
        at += length;
    }
    found
}

fn run_of(text: &str, holds: impl Fn(char) -> bool) -> usize {
    text.find(|c| !holds(c)).unwrap_or(text.len())
}

/// The place behind the bracket that closes the one at `open`.
pub fn behind(tokens: &[Token], open: usize) -> usize {
    let mut depth = 0;
    for (number, token) in tokens.iter().enumerate().skip(open) {
        match token.text.as_str() {
            "(" | "[" | "{" => depth += 1,
            ")" | "]" | "}" => depth -= 1,
            _ => {}
        }
        if depth == 0 {
            return number + 1;
        }
    }
    tokens.len()
}

/// What stands between the brackets from `open` on, cut at the commas.
pub fn parts(tokens: &[Token], open: usize) -> Vec<Range<usize>> {
    let end = behind(tokens, open) - 1;
    let (mut parts, mut from, mut at) = (Vec::new(), open + 1, open + 1);
    while at < end {
        if matches!(tokens[at].text.as_str(), "(" | "[" | "{") {
            at = behind(tokens, at);
            continue;
        }
        if tokens[at].is(",") {
            parts.push(from..at);
            from = at + 1;
        }
        at += 1;
    }
    if from < end {
        parts.push(from..end);
    }
    parts
}

/// Code that may be changed: the body of a function, or a constant's value.
pub struct Body {
    /// The function's name; a constant has none here.
    pub function: Option<String>,
    pub tokens: Range<usize>,
}

/// The bodies of functions, and the values of constants, which are code too. Contracts are not: a wrong program keeps them.
pub fn bodies(tokens: &[Token]) -> Vec<Body> {
    let mut found = Vec::new();
    let mut at = 0;
    while at < tokens.len() {
        if tokens[at].is("fn") {
            let Some(open) = (at..tokens.len()).find(|number| tokens[*number].is("(")) else { break };
            let function = Some(tokens[at + 1].text.clone());
            at = behind(tokens, open);
            // The result's type, then clauses, perhaps each with a name, and their braces, then the body's brace.
            while at < tokens.len() && !tokens[at].is("{") {
                let clause = ["requires", "ensures", "ghost"].iter().any(|word| tokens[at].is(word));
                let brace = (at..tokens.len()).find(|number| clause && tokens[*number].is("{"));
                at = brace.map_or(at + 1, |brace| behind(tokens, brace));
            }
            let end = behind(tokens, at);
            found.push(Body { function, tokens: at..end });
            at = end;
        } else if tokens[at].is("const") {
            let value = (at..tokens.len()).find(|number| tokens[*number].is("=")).unwrap_or(tokens.len());
            let end = (value..tokens.len())
                .find(|number| tokens[*number].is(";") && !inside(tokens, value, *number))
                .unwrap_or(tokens.len());
            found.push(Body { function: None, tokens: value..end });
            at = end;
        } else {
            at += 1;
        }
    }
    found
}

/// Whether a place stands in a bracket that was opened after `from`.
fn inside(tokens: &[Token], from: usize, place: usize) -> bool {
    let sum = |token: &Token| match token.text.as_str() {
        "(" | "[" | "{" => 1,
        ")" | "]" | "}" => -1,
        _ => 0,
    };
    tokens[from..place].iter().map(sum).sum::<i32>() != 0
}

/// What a crate and those that it uses declare.
#[derive(Default)]
pub struct Declared {
    /// The types of each function's parameters, by its name.
    pub functions: HashMap<String, Vec<String>>,
    /// Each enum's variants, with what they hold, by the enum's name.
    pub enums: HashMap<String, Vec<(String, String)>>,
}

impl Declared {
    pub fn read(&mut self, tokens: &[Token]) {
        for at in 0..tokens.len().saturating_sub(2) {
            if tokens[at].is("fn") && tokens[at + 2].is("(") {
                let types =
                    parts(tokens, at + 2).into_iter().map(|part| written(tokens, part.start + 2..part.end)).collect();
                self.functions.insert(tokens[at + 1].text.clone(), types);
            }
            if tokens[at].is("enum") && tokens[at + 2].is("{") {
                let variant =
                    |part: Range<usize>| (tokens[part.start].text.clone(), written(tokens, part.start + 1..part.end));
                self.enums
                    .insert(tokens[at + 1].text.clone(), parts(tokens, at + 2).into_iter().map(variant).collect());
            }
        }
    }
}

fn written(tokens: &[Token], range: Range<usize>) -> String {
    tokens[range].iter().map(|token| token.text.as_str()).collect::<Vec<_>>().join(" ")
}
