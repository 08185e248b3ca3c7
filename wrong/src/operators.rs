//! The one-place changes that mutants are made of.

use std::ops::Range;

use crate::code::{behind, bodies, parts, Declared, Kind, Token};

/// In the file's text, `at` becomes `new`.
#[derive(Clone, Debug)]
pub struct Mutant {
    pub at: Range<usize>,
    pub new: String,
    /// Which change, in words.
    pub what: &'static str,
}

/// Every one-place change of a file's code.
pub fn mutants(text: &str, tokens: &[Token], declared: &Declared) -> Vec<Mutant> {
    let mut found = Vec::new();
    for body in bodies(tokens) {
        for at in body.tokens {
            comparison(tokens, at, &mut found);
            constant(tokens, at, &mut found);
            branch(tokens, at, &mut found);
            variant(tokens, at, declared, &mut found);
            swapped(text, tokens, at, declared, &mut found);
            dropped(tokens, at, &mut found);
        }
    }
    found
}

fn comparison(tokens: &[Token], at: usize, found: &mut Vec<Mutant>) {
    let others: &[&str] = match tokens[at].text.as_str() {
        "==" => &["!="],
        "!=" => &["=="],
        "<" => &["<=", ">="],
        "<=" => &["<", ">"],
        ">" => &[">=", "<="],
        ">=" => &[">", "<"],
        _ => return,
    };
    found.extend(others.iter().map(|new| Mutant {
        at: tokens[at].at.clone(),
        new: new.to_string(),
        what: "a comparison turned",
    }));
}

/// A number one more or one less, or a truth value turned.
fn constant(tokens: &[Token], at: usize, found: &mut Vec<Mutant>) {
    let token = &tokens[at];
    let mut put = |new: String| found.push(Mutant { at: token.at.clone(), new, what: "a constant one off" });
    match token.text.as_str() {
        "true" => put("false".to_string()),
        "false" => put("true".to_string()),
        _ => {
            let Some((value, hex)) = value(token) else { return };
            let write = |value: u64| if hex { format!("0x{value:02X}") } else { value.to_string() };
            put(write(value + 1));
            if value > 0 {
                put(write(value - 1));
            }
        }
    }
}

fn value(token: &Token) -> Option<(u64, bool)> {
    if token.kind != Kind::Number {
        return None;
    }
    if let Some(digits) = token.text.strip_prefix("0x") {
        return u64::from_str_radix(&digits.replace('_', ""), 16).ok().map(|value| (value, true));
    }
    match token.text.strip_prefix("b'") {
        Some("\\n'") => Some((10, false)),
        Some("\\r'") => Some((13, false)),
        Some(character) => character.bytes().next().map(|value| (value.into(), false)),
        None => token.text.replace('_', "").parse().ok().map(|value| (value, false)),
    }
}

/// A branch taken always or never.
fn branch(tokens: &[Token], at: usize, found: &mut Vec<Mutant>) {
    if !tokens[at].is("if") {
        return;
    }
    let Some(open) = (at + 1..tokens.len()).find(|number| tokens[*number].is("{")) else { return };
    let test = tokens[at + 1].at.start..tokens[open - 1].at.end;
    for (new, what) in [("true", "a branch taken always"), ("false", "a branch never taken")] {
        found.push(Mutant { at: test.clone(), new: new.to_string(), what });
    }
}

/// Another variant of the same enum that holds the same.
fn variant(tokens: &[Token], at: usize, declared: &Declared, found: &mut Vec<Mutant>) {
    let named = at + 2 < tokens.len() && tokens[at + 1].is("::");
    let Some(variants) = declared.enums.get(&tokens[at].text).filter(|_| named) else { return };
    let Some((_, holds)) = variants.iter().find(|(name, _)| tokens[at + 2].is(name)) else { return };
    for (other, _) in variants.iter().filter(|(other, held)| held == holds && !tokens[at + 2].is(other)) {
        found.push(Mutant { at: tokens[at + 2].at.clone(), new: other.clone(), what: "a neighbouring variant" });
    }
}

/// Two arguments of one type swapped.
fn swapped(text: &str, tokens: &[Token], at: usize, declared: &Declared, found: &mut Vec<Mutant>) {
    let called = tokens[at].kind == Kind::Word && tokens.get(at + 1).is_some_and(|next| next.is("("));
    let Some(types) = declared.functions.get(&tokens[at].text).filter(|_| called) else { return };
    let arguments = parts(tokens, at + 1);
    if arguments.len() != types.len() {
        return;
    }
    let place = |part: &Range<usize>| tokens[part.start].at.start..tokens[part.end - 1].at.end;
    for first in 0..arguments.len() {
        for second in first + 1..arguments.len() {
            let (one, other) = (place(&arguments[first]), place(&arguments[second]));
            if types[first] == types[second] && text[one.clone()] != text[other.clone()] {
                let new = format!("{}{}{}", &text[other.clone()], &text[one.end..other.start], &text[one.clone()]);
                found.push(Mutant { at: one.start..other.end, new, what: "two arguments swapped" });
            }
        }
    }
}

/// A statement dropped: an assignment, or a call that gives nothing that is used.
fn dropped(tokens: &[Token], at: usize, found: &mut Vec<Mutant>) {
    let starts = at > 0 && matches!(tokens[at - 1].text.as_str(), "{" | "}" | ";") && tokens[at].kind == Kind::Word;
    if !starts
        || ["let", "return", "if", "while", "loop", "match", "break", "continue"].iter().any(|word| tokens[at].is(word))
    {
        return;
    }
    let mut end = at;
    while end < tokens.len() && !matches!(tokens[end].text.as_str(), ";" | "," | "}" | "{" | "=>" | ":") {
        end = if matches!(tokens[end].text.as_str(), "(" | "[") { behind(tokens, end) } else { end + 1 };
    }
    if end < tokens.len() && tokens[end].is(";") {
        found.push(Mutant {
            at: tokens[at].at.start..tokens[end].at.end,
            new: String::new(),
            what: "a statement dropped",
        });
    }
}
