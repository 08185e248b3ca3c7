//! One name for one thing: the calls of the archive with their parameters in Rattle, C and Rust, the machines'
//! functions in C and Rust, and one version. The sources are read as text.

use std::collections::{BTreeMap, BTreeSet};

use motikhund::constants::{FRAMER_CONTROL_SIZE, HUB_CONTROL_SIZE, READER_CONTROL_SIZE, SENDER_CONTROL_SIZE};
use motikhund::{Reader, VERSION};

const HEADER: &str = include_str!("../../../c/motikhund.h");
const RATTLE: &str = include_str!("../../../../crates/motikhund/src/lib.rt");
const RAW: &str = include_str!("../../src/raw.rs");
const PACKET: &str = include_str!("../../src/packet.rs");
const TABLE: &str = include_str!("../../src/table.rs");
const TABLES: &str = include_str!("../../../../crates/motikhund/src/tables.rt");

/// Each machine: its name in C, its type in Rust, where that stands, and where its lent form does.
const MACHINES: [(&str, &str, &str, &str); 4] = [
    ("framer", "Framer", include_str!("../../src/framer.rs"), include_str!("../../src/lent/framer.rs")),
    ("hub", "Hub", include_str!("../../src/hub.rs"), include_str!("../../src/lent/hub.rs")),
    ("sender", "Sender", include_str!("../../src/sender.rs"), include_str!("../../src/lent/sender.rs")),
    ("reader", "Reader", include_str!("../../src/reader.rs"), include_str!("../../src/lent/reader.rs")),
];

/// The text between two marks, without comments.
fn part(text: &str, from: &str, to: &str) -> String {
    let (_, rest) = text.split_once(from).expect(from);
    let (part, _) = rest.split_once(to).unwrap_or((rest, ""));
    part.lines().map(|line| line.split("//").next().unwrap_or_default()).collect::<Vec<_>>().join(" ")
}

/// Each `mk_..(..)` with the names of its parameters, which `name` finds in each of them.
fn calls(text: &str, name: fn(&str) -> Vec<String>) -> BTreeMap<String, Vec<String>> {
    let mut calls = BTreeMap::new();
    for declared in text.split("mk_").skip(1) {
        let (call, rest) = declared.split_once('(').expect("parameters");
        let (parameters, _) = rest.split_once(')').expect("their end");
        let parameters = parameters.split(',').map(str::trim).filter(|parameter| !parameter.is_empty());
        let before = calls.insert(call.to_string(), parameters.flat_map(name).collect());
        assert_eq!(before, None, "{call} twice");
    }
    calls
}

/// `uint8_t line[MK_LINE_SIZE]`, `const uint8_t *bytes`.
fn in_c(parameter: &str) -> Vec<String> {
    let name = parameter.split('[').next().unwrap_or_default();
    vec![name.rsplit([' ', '*']).next().unwrap_or_default().to_string()]
}

/// `line: *mut [u8; LINE_SIZE]`.
fn in_rust(parameter: &str) -> Vec<String> {
    vec![parameter.split(':').next().unwrap_or_default().to_string()]
}

/// `bytes: &[u8]`, which is a pointer and a length outside.
fn in_rattle(parameter: &str) -> Vec<String> {
    let (name, kind) = parameter.split_once(": ").expect("a type");
    let slice = kind.contains('[') && !kind.contains(';');
    [Some(name.to_string()), slice.then(|| format!("{name}_len"))].into_iter().flatten().collect()
}

/// The struct's name among the parameters is no call's.
fn header_calls() -> BTreeMap<String, Vec<String>> {
    let declared = part(HEADER, "// ---- the calls of the archive", "// ---- machines with their buffers");
    calls(&declared.replace("mk_table *", "*"), in_c)
}

#[test]
fn of_the_calls() {
    let header = header_calls();
    assert_eq!(header, calls(&part(RAW, "extern \"C\" {", "\n}"), in_rust));
    let exported: String = RATTLE.split("pub extern \"C\" fn ").skip(1).map(|text| part(text, "", "ensures")).collect();
    let rattle = calls(&exported, in_rattle);
    assert!(rattle.len() > 18, "{rattle:?}");
    for (call, parameters) in rattle {
        assert_eq!(header.get(&call), Some(&parameters), "{call}");
    }
}

/// Functions of a machine's type in Rust.
fn functions(text: &str, of: &str) -> BTreeSet<String> {
    let public = |line: &str| {
        let rest = line.strip_prefix("    pub fn ").or(line.strip_prefix("    pub const fn "))?;
        rest.split(['(', '<']).next().map(str::to_string)
    };
    let (_, rest) = text.split_once(&format!("\nimpl {of} {{\n")).expect(of);
    rest.lines().take_while(|line| *line != "}").filter_map(public).collect()
}

#[test]
fn of_the_machines() {
    let machines = part(HEADER, "// ---- machines with their buffers", "\n#undef");
    let mut only_rust = Vec::new();
    for (machine, of, text, _) in MACHINES {
        let begin = format!("mk_{machine}_");
        let c: BTreeSet<String> = machines
            .split("static inline ")
            .skip(1)
            .filter_map(|text| text.split('(').next()?.split(' ').next_back()?.strip_prefix(&begin))
            .map(|name| if name == "init" { "new" } else { name }.to_string())
            .collect();
        let rust = functions(text, of);
        assert!(c.len() >= 2 && c.is_subset(&rust), "{machine}: in C {c:?}, in Rust {rust:?}");
        only_rust.extend(rust.difference(&c).map(|name| format!("{of}::{name}")));
    }
    // What C reads in the struct or gets by a raw call.
    let names = ["control", "load", "locked", "powered_up", "put_table", "save", "table"];
    let of_reader = names.map(|name| format!("Reader::{name}"));
    assert_eq!(only_rust, [&["Sender::idle".to_string()][..], &of_reader].concat());
}

/// `pub present: [u8; PLACES],` or `uint8_t present[MK_PLACES];`: the fields of a struct that begins so.
fn fields(text: &str, begin: &str) -> Vec<String> {
    let declared = part(text, begin, "}");
    let name = |field: &str| {
        let (name, _) = field.split_once([':', '['])?;
        name.split_whitespace().next_back().map(str::to_string)
    };
    declared.split([',', ';']).filter_map(name).collect()
}

/// `mk_table_set` is `Table::set`, and so for each call; `mk_table_init` is `Table::new`. What Rust reads by number C reads
/// in the struct, whose fields are Rattle's.
#[test]
fn of_the_table() {
    let rust = functions(TABLE, "Table");
    let mut c: BTreeSet<String> =
        header_calls().into_keys().filter_map(|call| Some(call.strip_prefix("table_")?.to_string())).collect();
    assert_eq!(c, ["power_up", "set", "set_defaults"].map(str::to_string).into());
    assert!(HEADER.contains("static inline void mk_table_init(mk_table *table)"));
    c.insert("new".to_string());
    let read = ["locked", "parameter", "permanent"].map(str::to_string);
    assert_eq!(rust, c.into_iter().chain(read).collect());
    let in_order = ["present", "permanent", "locked"];
    assert_eq!(fields(TABLES, "pub struct MkTable {"), in_order);
    assert_eq!(fields(TABLE, "pub struct Table {"), in_order);
    let (declared, _) = HEADER.split_once("} mk_table;").expect("the struct");
    let (_, declared) = declared.rsplit_once("typedef struct {").expect("its begin");
    assert_eq!(fields(declared, ""), in_order);
}

/// `mk_hub_hear` is `lent::hub::hear`, `mk_check` is `packet::check`. The short way is inside of those, and a table is
/// lent as it is.
#[test]
fn of_the_lent_calls() {
    let stands = |text: &str, name: &str| ["(", "<"].iter().any(|end| text.contains(&format!("\npub fn {name}{end}")));
    let mut found = 0;
    for call in header_calls().into_keys().filter(|call| call != "go_on" && !call.starts_with("table_")) {
        let place = MACHINES
            .iter()
            .find_map(|(machine, _, _, lent)| Some((*lent, call.strip_prefix(machine)?.strip_prefix('_')?)));
        let (text, name) = place.unwrap_or((PACKET, &call));
        assert!(stands(text, name), "mk_{call}");
        found += 1;
    }
    assert!(found > 18);
}

fn defined(name: &str) -> &'static str {
    let line = HEADER.lines().find_map(|line| line.strip_prefix(&format!("#define {name} ")));
    line.expect(name).trim_matches('"')
}

#[test]
fn of_the_version() {
    assert_eq!(defined("MK_VERSION"), VERSION);
    let number = VERSION.split('.').fold(0, |number, part| 100 * number + part.parse::<u32>().expect("a number"));
    assert_eq!(defined("MK_VERSION_NUMBER"), number.to_string());
}

/// The version's first two numbers rise with a control value's layout: who changes this line changes them too.
#[test]
fn of_the_layout() {
    let (layout, sizes, defaults) = ("0.4.", [9, 29, 44, 101], (26, 35, 53));
    assert!(VERSION.starts_with(layout), "{VERSION}");
    assert_eq!([FRAMER_CONTROL_SIZE, HUB_CONTROL_SIZE, SENDER_CONTROL_SIZE, READER_CONTROL_SIZE], sizes);
    let (present, permanent, switches) = defaults;
    let mut on = [0; READER_CONTROL_SIZE];
    for at in [present, permanent] {
        on[at..at + 9].copy_from_slice(&[0, 10, 0, 20, 6, 4, 1, 0, 1]);
    }
    on[switches] = 1;
    assert_eq!(Reader::new().control(), &on);
    // The locks stand between values and switches.
    let mut reader = Reader::new();
    let house = [1, 9, 0x80, 0, 0x89, 10, 0x8A, 0, 0x9B, 20, 0x9C, 6, 0x9E, 4, 0x9F, 1, 0xED, 0, 0xEE, 1];
    assert_eq!(reader.load(&[&house[..], &[2, 0x80, 0xEE]].concat()), Ok(()));
    on[permanent + 9] = 1;
    on[switches - 1] = 1;
    assert_eq!(reader.control(), &on);
}
