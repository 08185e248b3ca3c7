//! Makes a stream that shows a difference as small as it gets, by leaving parts out.

/// `differs` says whether a stream still shows the difference; it may say no for want of time.
pub fn shrink(text: &[u8], differs: &mut dyn FnMut(&[u8]) -> bool) -> Vec<u8> {
    // First by what lies between gaps, which goes fast, then by tokens, then by what is inside of those.
    let runs = shortest_front(split_runs(text), differs);
    let runs = leave_out(runs, differs);
    let tokens = leave_out(split_tokens(&runs.concat()), differs);
    let pieces = leave_out(split_pieces(&tokens.concat()), differs);
    // Easier to read, if the spacing had no part in it.
    let spaced = pieces.join(&b' ').to_ascii_uppercase();
    if differs(&spaced) {
        spaced
    } else {
        pieces.concat()
    }
}

/// The stream in parts that end with a gap or one of the reader's own events.
fn split_runs(text: &[u8]) -> Vec<Vec<u8>> {
    text.split_inclusive(|character| b"./;]TPUW".contains(character)).map(<[u8]>::to_vec).collect()
}

/// The stream in pairs of digits, single characters, and whole tokens with bytes: half of one is mostly wrong.
fn split_tokens(text: &[u8]) -> Vec<Vec<u8>> {
    let mut tokens: Vec<Vec<u8>> = Vec::new();
    let mut open = false;
    for piece in split_pieces(text) {
        let opens = [b"S", b"K", b"L", b"["].iter().any(|letter| piece == *letter);
        let ends = piece == b";" || piece == b"]";
        match tokens.last_mut() {
            Some(token) if open => token.extend(piece),
            _ => tokens.push(piece),
        }
        open = (open || opens) && !ends;
    }
    tokens
}

/// The stream in pairs of digits and single characters.
fn split_pieces(text: &[u8]) -> Vec<Vec<u8>> {
    let mut pieces = Vec::new();
    let mut rest = text;
    while !rest.is_empty() {
        let pair = rest.len() > 1 && rest[..2].iter().all(u8::is_ascii_hexdigit);
        let (piece, after) = rest.split_at(if pair { 2 } else { 1 });
        pieces.push(piece.to_vec());
        rest = after;
    }
    pieces
}

/// A front of the parts that still differs. The programs stream, so the front where the difference comes is enough.
fn shortest_front(mut parts: Vec<Vec<u8>>, differs: &mut dyn FnMut(&[u8]) -> bool) -> Vec<Vec<u8>> {
    let (mut same, mut different) = (0, parts.len());
    while different - same > 1 {
        let middle = (same + different) / 2;
        if differs(&parts[..middle].concat()) {
            different = middle;
        } else {
            same = middle;
        }
    }
    parts.truncate(different);
    parts
}

/// Leaves out halves, quarters and so on down to single parts, and again until nothing more can go.
fn leave_out(mut parts: Vec<Vec<u8>>, differs: &mut dyn FnMut(&[u8]) -> bool) -> Vec<Vec<u8>> {
    let mut size = parts.len().div_ceil(2);
    while size > 0 {
        let went = one_sweep(&mut parts, size, differs);
        if size > 1 || !went {
            size /= 2;
        }
    }
    parts
}

fn one_sweep(parts: &mut Vec<Vec<u8>>, size: usize, differs: &mut dyn FnMut(&[u8]) -> bool) -> bool {
    let mut went = false;
    // From the end, where most of what led to the difference no longer matters.
    let mut end = parts.len();
    while end > 0 {
        let start = end.saturating_sub(size);
        let less = [&parts[..start], &parts[end..]].concat();
        if differs(&less.concat()) {
            *parts = less;
            went = true;
        }
        end = start;
    }
    went
}
