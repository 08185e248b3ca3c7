//! The help, its examples, and usage.

use crate::run::{lines, run};

#[test]
fn three_ways_to_ask() {
    let help = run(&["--help"], b"");
    assert_eq!((help.said.as_str(), help.status), ("", Some(0)));
    assert!(help.lines.lines().all(|line| line.len() <= 100));
    assert_eq!(run(&["-h"], b""), help);
    assert_eq!(run(&["help"], b""), help);
}

/// Each example is followed by the lines that it writes.
#[test]
fn its_examples_do_what_it_says() {
    let help = run(&["--help"], b"").lines;
    let mut examples = 0;
    for example in help.split("    echo \"").skip(1) {
        let (text, rest) = example.split_once("\" | ./desk ").expect("a pipe");
        let (end, rest) = rest.split_once('\n').expect("a line");
        let due: String =
            rest.lines().take_while(|line| !line.is_empty()).map(|line| format!("{}\n", line.trim())).collect();
        assert_eq!(lines(end, text), due);
        examples += 1;
    }
    assert_eq!(examples, 5);
}

#[test]
fn usage() {
    for words in [&[][..], &["desk"], &["hub", "reader"], &["story", "8"], &["--version"], &[""]] {
        let ran = run(words, b"03");
        assert!(ran.said.starts_with("usage: desk hub"), "{}", ran.said);
        assert_eq!((ran.lines.as_str(), ran.status), ("", Some(2)), "{words:?}");
    }
}
