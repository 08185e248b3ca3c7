//! What the tool itself must do: a verdict that it gets wrong would let a wrong program pass.

use std::fs;
use std::path::Path;

use crate::code::{tokens, Declared};
use crate::edit::Edit;
use crate::mutants::is_in;
use crate::operators::mutants;
use crate::together::{Changed, Code};
use crate::trial::{own_verdict, plain, side_by_side, verdict, Verdict};

const CODE: &str = "
// a comment: if x == 1 { y }
pub enum Told { Nothing, Added, Kept(u8), Lost(u8) }
const LIMIT: [u8; 2] = [7, 0x1A];
fn put(at: usize, from: &[u8], end: usize) -> Told
    requires { at < 3 }
    ensures puts { Puts at result }
    ensures keeps { at ≤ 3 }
{
    if at <= end {
        count = at;
        return Told::Kept(from[0]);
    }
    put(at, from, end)
}
";

/// The changes of a kind, as the text that goes and the text that comes.
fn changes(what: &str) -> Vec<(String, String)> {
    let tokens = tokens(CODE);
    let mut declared = Declared::default();
    declared.read(&tokens);
    let all = mutants(CODE, &tokens, &declared).into_iter().filter(|mutant| mutant.what == what);
    all.map(|mutant| (CODE[mutant.at].to_string(), mutant.new)).collect()
}

fn pairs(expected: &[(&str, &str)]) -> Vec<(String, String)> {
    expected.iter().map(|(old, new)| (old.to_string(), new.to_string())).collect()
}

#[test]
fn mutants_change_code_and_constants_but_no_contract_and_no_comment() {
    assert_eq!(changes("a comparison turned"), pairs(&[("<=", "<"), ("<=", ">")]));
    let constants = [("7", "8"), ("7", "6"), ("0x1A", "0x1B"), ("0x1A", "0x19"), ("0", "1")];
    assert_eq!(changes("a constant one off"), pairs(&constants));
    assert_eq!(changes("a branch taken always"), pairs(&[("at <= end", "true")]));
    assert_eq!(changes("a branch never taken"), pairs(&[("at <= end", "false")]));
    assert_eq!(changes("a neighbouring variant"), pairs(&[("Kept", "Lost")]));
    assert_eq!(changes("two arguments swapped"), pairs(&[("at, from, end", "end, from, at")]));
    assert_eq!(changes("a statement dropped"), pairs(&[("count = at;", "")]));
}

#[test]
fn a_part_of_a_crate_is_a_module_or_a_function() {
    for (path, inner, is) in [
        ("block::read", "block", true),
        ("block::read", "block::read", true),
        ("blocks", "block", false),
        ("read", "block", false),
    ] {
        assert_eq!(is_in(path, inner), is, "{path} in {inner}");
    }
}

#[test]
fn an_edit_applies_where_its_text_stands_once() {
    let folder = std::env::temp_dir().join(format!("wrong-edit-{}", std::process::id()));
    fs::create_dir_all(folder.join("src")).unwrap();
    let write = |text: &str| fs::write(folder.join("src/lib.rt"), text).unwrap();
    let edit =
        Edit::parse("# b in place of a\nfile: src/lib.rt\nold: a;\nnew: b;\n").unwrap_or_else(|why| panic!("{why}"));
    for (text, after) in [("x a; y", Some("x b; y")), ("x", None), ("a; a;", None)] {
        write(text);
        let applied = edit.apply(&folder).unwrap();
        assert_eq!(applied.is_ok(), after.is_some(), "{text}");
        assert_eq!(fs::read_to_string(folder.join("src/lib.rt")).unwrap(), after.unwrap_or(text));
    }
    for outside in ["../lib.rt", "/etc/hosts", "must-fail/a", "src/../../x"] {
        let edit =
            Edit::parse(&format!("# out\nfile: {outside}\nold: a\nnew: b\n")).unwrap_or_else(|why| panic!("{why}"));
        assert!(edit.apply(&folder).unwrap().is_err(), "{outside}");
    }
    fs::remove_dir_all(&folder).unwrap();
}

#[test]
fn an_edit_says_what_is_wrong_and_changes_something() {
    let bad = [
        "",
        "file: src/lib.rt\nold: a\nnew: b\n",
        "# \nfile: f\nold: a\nnew: b\n",
        "# why\n",
        "# why\nold: a\nnew: b\n",
        "# why\nfile: f\nnew: b\n",
    ];
    for text in bad {
        assert!(Edit::parse(text).is_err(), "{text:?}");
    }
}

#[test]
fn only_the_provers_own_word_is_a_refusal() {
    let first = |log: &str| match verdict(Some(1), &plain(&format!("{log}logic=not-proved\n"))) {
        Verdict::Refused { place, shape } => Some((place, shape)),
        _ => None,
    };
    let is = |place: &str, shape: bool| Some((place.to_string(), shape));
    let differ = "./proofs/f/Answers.antt:3:1: error: `returns`: the two types differ\n";
    let gone = "./proofs/f/Answers.antt:5:1: error: `returns-then-a`: module `Goals` has no `returns-then-a` that can be named from here\n";
    let open =
        "note: src/lib.rt:7:1: it is not proved that what the function ensures holds when it returns (`returns`)";
    let ends = [
        "\nfn c::f: not proved\n",
        "\nfn c::g: no proof: ..\n",
        "; the facts known there allow values at which this goal is false\nfn c::f: not proved\n",
    ];
    let [own, other, false_goal] = ends.map(|end| format!("{open}{end}"));
    assert_eq!(first(differ), is("proofs/f/Answers.antt:3:1", false));
    assert_eq!(first(&format!("{gone}{differ}")), is("proofs/f/Answers.antt:3:1", false));
    // For names alone; and a goal that is open, where its answer may stand under a name that is gone.
    assert_eq!(first(gone), is("proofs/f/Answers.antt:5:1", true));
    assert_eq!(first(&format!("{gone}{own}")), is("proofs/f/Answers.antt:5:1", true));
    for log in [own.clone(), format!("{gone}{other}"), format!("{gone}{false_goal}")] {
        assert_eq!(first(&log), is("src/lib.rt:7:1", false), "{log}");
    }
    assert_eq!(first(&format!("specs/F.antt:2:1: error: expected a type\n{differ}")), None);
    assert_eq!(first(&format!("specs/F.antt:2:1: error: `f`: `g` is not in scope\n{differ}")), None);
    assert!(!matches!(verdict(Some(1), "src/lib.rt:3:1: error: expected `;`\n"), Verdict::Refused { .. }));
    assert!(matches!(verdict(Some(0), "logic=proved functions=3\n"), Verdict::Survived));
    for (status, log) in [(Some(3), "rattle: no verdict\n"), (Some(2), "logic=not-proved\n"), (None, "")] {
        assert!(matches!(verdict(status, log), Verdict::NoProgram(_)));
    }
}

const LIB: &str = "const LIMIT: u8 = 7;\nfn low(a: u8) -> u8\n    ensures { Low a result }\n{\n    a + 1\n}\n// behind\nfn mid(a: u8) -> u8 {\n    low(a)\n}\n";

const PROOF: &str = "returns c = c.mid.ensures\n";

/// A crate with two files and a proof, for as long as `then` looks at it.
fn in_a_crate<T>(label: &str, then: impl Fn(&Path, &Code) -> T) -> T {
    let folder = std::env::temp_dir().join(format!("wrong-{label}-{}", std::process::id()));
    fs::create_dir_all(folder.join("src")).unwrap();
    fs::create_dir_all(folder.join("proofs/top/high")).unwrap();
    fs::write(folder.join("src/lib.rt"), LIB).unwrap();
    fs::write(folder.join("proofs/top/high/Answers.antt"), PROOF).unwrap();
    fs::write(
        folder.join("src/top.rt"),
        "pub fn high(a: u8) -> u8 {\n    crate::mid(a)\n}\nfn other() -> u8 {\n    1\n}\n",
    )
    .unwrap();
    let result = then(&folder, &Code::of(&folder).unwrap());
    fs::remove_dir_all(&folder).unwrap();
    result
}

fn changed(code: &Code, pairs: &str) -> Option<Changed> {
    code.changed(&Edit::parse(&format!("# wrong\n{pairs}")).unwrap_or_else(|why| panic!("{why}")))
}

#[test]
fn an_edit_of_one_body_is_known_by_its_function() {
    in_a_crate("known", |_, code| {
        let of = |pairs: &str| changed(code, pairs).map(|one| code.path(&one).to_string());
        let is = |path: &str| Some(path.to_string());
        assert_eq!(of("file: src/lib.rt\nold:     a + 1\nnew:     a + 2\n"), is("low"));
        assert_eq!(of("file: src/top.rt\nold: crate::mid(a)\nnew: crate::mid(0)\n"), is("top::high"));
        let at = |text: &str| code.at(Path::new("src/lib.rt"), LIB.find(text).unwrap());
        assert_eq!([at("a + 1"), at("low(a)\n"), at("7"), at("Low a")], [Some("low"), Some("mid"), None, None]);
        // The contract stays, the body comes from before the old one, which is a comment now.
        let before =
            "old:     ensures { Low a result }\nnew:     ensures { Low a result } { 3 } /*\nold: // behind\nnew: */\n";
        assert_eq!(of(&format!("file: src/lib.rt\n{before}")), is("low"));
        // The function's own proof may go with it.
        let high = "file: src/top.rt\nold: crate::mid(a)\nnew: crate::low(a)\n";
        let proof = |path: &str| format!("{high}file: {path}\nold: c.mid\nnew: c.low\n");
        assert_eq!(of(&proof("proofs/top/high/Answers.antt")), is("top::high"));
        assert_eq!(of(&proof("proofs/high/Answers.antt")), None);
        // A constant, a contract, a name, two functions, two files, no change, a text that stands twice: more than one body, or no edit.
        for more in [
            "file: src/lib.rt\nold: = 7;\nnew: = 8;\n",
            "file: src/lib.rt\nold: Low a result\nnew: Low result a\n",
            "file: src/lib.rt\nold: fn mid\nnew: fn mad\n",
            "file: src/lib.rt\nold: a + 1\nnew: a\nold: low(a)\nnew: a\n",
            "file: src/lib.rt\nold: a + 1\nnew: a\nfile: src/top.rt\nold:     1\nnew:     2\n",
            "file: src/lib.rt\nold: // behind\nnew: // before\n",
            "file: src/lib.rt\nold: u8\nnew: u8\n",
            "file: specs/Low.antt\nold: a\nnew: b\n",
        ] {
            assert_eq!(of(more), None, "{more}");
        }
    });
}

#[test]
fn edits_that_stand_together_change_functions_that_do_not_reach_each_other() {
    in_a_crate("groups", |folder, code| {
        let low = "file: src/lib.rt\nold: a + 1\nnew: a + 2\n";
        let other = "file: src/top.rt\nold:     1\nnew:     2\n";
        let high = "file: src/top.rt\nold: crate::mid(a)\nnew: crate::mid(0)\n";
        let constant = "file: src/lib.rt\nold: = 7;\nnew: = 8;\n";
        let all: Vec<_> = [low, low, constant, other, high].map(|pairs| changed(code, pairs)).into_iter().collect();
        assert_eq!(code.groups(&all), [vec![0, 3], vec![1], vec![2], vec![4]]);
        let step =
            changed(code, &format!("{high}file: proofs/top/high/Answers.antt\nold: c.mid\nnew: c.low\n")).unwrap();
        let two: Vec<&Changed> = [0, 3].iter().filter_map(|edit| all[*edit].as_ref()).collect();
        let before = ["src/lib.rt", "src/top.rt"].map(|file| fs::read_to_string(folder.join(file)).unwrap());
        code.write(folder, &two).unwrap();
        let after = ["src/lib.rt", "src/top.rt"].map(|file| fs::read_to_string(folder.join(file)).unwrap());
        assert_eq!(after, [before[0].replace("a + 1", "a + 2"), before[1].replace("    1", "    2")]);
        code.write(folder, &[&step]).unwrap();
        assert_eq!(
            fs::read_to_string(folder.join("proofs/top/high/Answers.antt")).unwrap(),
            PROOF.replace("c.mid", "c.low")
        );
    });
}

#[test]
fn of_several_edits_each_is_judged_by_its_own_function() {
    let log = "proofs/low/Answers.antt:3:1: error: `returns`: the two types differ\n  (found)\n\
        proofs/mid/Answers.antt:9:1: error: `returns`: `lemma` was not admitted\n\
        proofs/top/high/Answers.antt:2:1: error: `returns`: record `In` has no field `if-a`\n\
        enum c::Told: proved\n\
        fn c::low: not proved\n\
        fn c::mid: not proved; it calls `c::low`, which is not proved\n\
        note: src/top.rt:1:1: it is not proved that what the function ensures holds when it returns (`returns`)\n\
        fn c::top::high: not proved\n\
        note: src/lib.rt:7:1: it is not proved that what the function ensures holds when it returns (`returns`)\n\
        note: more\n\
        fn c::found: no proof: expected answers in ./proofs/found/Answers.antt; `search` did not prove `returns`\n\
        help: write proofs/found/Answers.antt\n\
        fn c::none: no proof: it calls `c::found`, which is not proved\n\
        fn c::bare: not proved\n\
        fn c::top::other: proved\n\
        logic=not-proved\n";
    let own = |path: &str| match own_verdict("c", path, log) {
        Some((Verdict::Refused { place, shape: false }, own)) => Some((place, own.lines().count())),
        Some(_) => panic!("only a refusal is a verdict here"),
        None => None,
    };
    assert_eq!(own("low"), Some(("proofs/low/Answers.antt:3:1".to_string(), 3)));
    assert_eq!(own("found"), Some(("src/lib.rt:7:1".to_string(), 3)));
    // Refused for another, for its shape, for want of a proof, without a reason; proved; not there: none is a refusal of its own.
    for path in ["mid", "top::high", "none", "bare", "top::other", "high", "lo"] {
        assert_eq!(own(path), None, "{path}");
    }
}

#[test]
fn results_are_shown_in_order_and_none_is_lost() {
    let mut shown = Vec::new();
    let results = side_by_side(50, |number, _| number * number, |number, result| shown.push((number, *result)));
    assert_eq!(results, (0..50).map(|number| number * number).collect::<Vec<_>>());
    assert_eq!(shown, (0..50).map(|number| (number, number * number)).collect::<Vec<_>>());
}
