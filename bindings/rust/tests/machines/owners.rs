//! The owning types do as their lent forms, and are values like others.

use std::sync::Mutex;

use motikhund::constants::{
    FRAMER_CONTROL_SIZE, HUB_ANSWER_SIZE, HUB_CONTROL_SIZE, LINE_SIZE, MESSAGE_SIZE, PACKET_SIZE, PLACES,
    PLACE_SAME_SYMBOL_TIME, PLACE_TRIGGER, READER_ANSWER_SIZE, READER_CONTROL_SIZE, SENDER_CONTROL_SIZE, SET_SIZE,
};
use motikhund::lent::{framer, hub, reader, sender};
use motikhund::{Event, Found, Framer, Heard, Hub, HubTold, Outcome, Reader, ReaderTold, Sender, Table};

use crate::dice::Dice;
use crate::streams::{Side, Stream};

const EVENTS: usize = 20_000;

#[test]
fn a_framer() {
    let (mut dice, mut stream) = (Dice::new(1), Stream::new(Side::Reader));
    let (mut control, mut line) = ([0xFF; FRAMER_CONTROL_SIZE], [0; PACKET_SIZE]);
    assert_eq!(framer::idle(&mut control), Ok(()));
    let mut owner = Framer::new();
    for _ in 0..EVENTS {
        let event = stream.next(&mut dice);
        assert_eq!(owner.event(event), framer::hear(&mut control, &mut line, event));
    }
}

#[test]
fn a_hub() {
    let (mut dice, mut stream) = (Dice::new(2), Stream::new(Side::Hub));
    let (mut control, mut line, mut gather) = ([0xFF; HUB_CONTROL_SIZE], [0; LINE_SIZE], [0; MESSAGE_SIZE]);
    let (mut answer, mut message) = ([0; HUB_ANSWER_SIZE], [0; MESSAGE_SIZE]);
    assert_eq!(hub::on(&mut control), Ok(()));
    let mut owner = Hub::new();
    for _ in 0..EVENTS {
        let event = stream.next(&mut dice);
        let told = hub::hear(&mut control, &mut line, &mut gather, &mut answer, &mut message, event);
        assert_eq!(owner.event(event), told);
    }
}

#[test]
fn a_sender() {
    let mut dice = Dice::new(3);
    let (mut control, mut buffer, mut copy) = ([0xFF; SENDER_CONTROL_SIZE], [0; MESSAGE_SIZE], [0; PACKET_SIZE]);
    assert_eq!(sender::idle(&mut control, true), Ok(()));
    let mut owner = Sender::idle(true);
    for _ in 0..EVENTS {
        assert_eq!(Ok(owner.out()), sender::waits(&control));
        let size = dice.pick(&[0, 1, 251, 1_000]);
        let card = dice.bytes(size);
        if dice.chance(20) {
            let outcome = sender::start(&mut control, &mut buffer, &mut copy, 0x1B, &card);
            assert_eq!(owner.send(0x1B, &card), outcome);
        } else {
            let heard = dice.pick(&[Heard::Ack, Heard::Ack, Heard::Nak(1), Heard::Nak(2), Heard::TimeOut]);
            assert_eq!(owner.heard(heard), sender::hear(&mut control, &buffer, &mut copy, heard));
        }
    }
}

#[test]
fn a_reader() {
    let (mut dice, mut stream) = (Dice::new(4), Stream::new(Side::Reader));
    let (mut control, mut line, mut answers) = ([0xFF; READER_CONTROL_SIZE], [0; LINE_SIZE], [0; READER_ANSWER_SIZE]);
    let (mut message, mut answer, mut copy) = ([0; MESSAGE_SIZE], [0; READER_ANSWER_SIZE], [0; PACKET_SIZE]);
    assert_eq!(reader::on(&mut control), Ok(()));
    let mut owner = Reader::new();
    for _ in 0..EVENTS {
        match dice.below(60) {
            0 => {
                let card = dice.bytes(300);
                let outcome = reader::start(&mut control, &mut message, &mut copy, 0x1B, &card);
                assert_eq!(owner.send(0x1B, &card), outcome);
            }
            1 => assert_eq!(owner.expire(), reader::time_out(&mut control, &message, &mut copy)),
            2 if dice.chance(20) => {
                owner.restart();
                assert_eq!(reader::power_up(&mut control), Ok(()));
            }
            3 => {
                let (mut one, mut other) = ([0; SET_SIZE], [0; SET_SIZE]);
                let set = owner.save(&mut one).to_vec();
                assert_eq!(reader::save(&control, &mut other), Ok(&set[..]));
                let form = any_locks(&mut dice, &set);
                assert_eq!(owner.load(&form), reader::load(&mut control, &form));
            }
            4 => {
                let mut table = owner.table();
                assert_eq!(reader::table(&control), Ok(table));
                table.locked[PLACE_SAME_SYMBOL_TIME] = dice.pick(&[0, 0, 1, 2]);
                table.present[PLACE_TRIGGER] = dice.pick(&[0, 1, 2]);
                assert_eq!(owner.put_table(&table), reader::put_table(&mut control, &table));
            }
            _ => {
                let event = stream.next(&mut dice);
                let (line, answers) = (&mut line, &mut answers);
                let told = reader::hear(&mut control, line, answers, &message, &mut answer, &mut copy, event);
                assert_eq!(owner.event(event), told);
            }
        }
        assert_eq!(owner.control(), &control);
        assert_eq!(Ok(owner.switched()), reader::switches(&control));
        assert_eq!(Ok(owner.parameter(0x89)), reader::value(&control, 0x89));
        assert_eq!(Ok(owner.locked(0x89)), reader::locked(&control, 0x89));
    }
}

/// The same values; locked now and then 89h, or what is no parameter.
fn any_locks(dice: &mut Dice, set: &[u8]) -> Vec<u8> {
    [&set[..20], dice.pick(&[&[0][..], &[0], &[1, 0x89], &[1, 0x81]])].concat()
}

/// What is made as a constant is what the library's call makes, each in a `static`.
#[test]
fn they_are_made_as_by_the_calls() {
    static FRAMER: Mutex<Framer> = Mutex::new(Framer::new());
    static HUB: Mutex<Hub> = Mutex::new(Hub::new());
    static SENDER: Mutex<Sender> = Mutex::new(Sender::new());
    static READER: Mutex<Reader> = Mutex::new(Reader::new());
    static TABLE: Mutex<Table> = Mutex::new(Table::new());
    let (mut of_framer, mut of_hub) = ([0xAA; FRAMER_CONTROL_SIZE], [0xAA; HUB_CONTROL_SIZE]);
    let (mut of_sender, mut of_reader) = ([0xAA; SENDER_CONTROL_SIZE], [0xAA; READER_CONTROL_SIZE]);
    assert_eq!((framer::idle(&mut of_framer), hub::on(&mut of_hub)), (Ok(()), Ok(())));
    assert_eq!((sender::idle(&mut of_sender, false), reader::on(&mut of_reader)), (Ok(()), Ok(())));
    let has = |shown: String, control: &[u8]| assert!(shown.contains(&format!("control: {control:?}")), "{shown}");
    has(format!("{:?}", FRAMER.lock().expect("whole")), &of_framer);
    has(format!("{:?}", HUB.lock().expect("whole")), &of_hub);
    has(format!("{:?}", SENDER.lock().expect("whole")), &of_sender);
    has(format!("{:?}", READER.lock().expect("whole")), &of_reader);
    let mut zeros = Table { present: [0; PLACES], permanent: [0; PLACES], locked: [0; PLACES] };
    zeros.set_defaults();
    assert_eq!(*TABLE.lock().expect("whole"), zeros);
    assert_eq!(sender::idle(&mut of_sender, true), Ok(()));
    has(format!("{:?}", Sender::idle(true)), &of_sender);
}

#[test]
fn they_are_values() {
    let (mut framer, mut hub, mut reader, mut sender) = <(Framer, Hub, Reader, Sender)>::default();
    assert_eq!((&framer, &hub, &reader, &sender), (&Framer::new(), &Hub::new(), &Reader::new(), &Sender::new()));
    assert_ne!(sender, Sender::idle(true));
    let before = (framer.clone(), hub.clone(), reader.clone(), sender.clone());
    let begun = Event::Byte(4);
    assert_eq!((framer.event(begun), hub.event(begun)), (Found::Nothing, HubTold::Nothing));
    assert_eq!(reader.event(begun), ReaderTold::Nothing);
    assert!(matches!(sender.send(0, &[]), Outcome::Copy { .. }));
    assert!(framer != before.0 && hub != before.1 && reader != before.2 && sender != before.3);
    assert!(format!("{hub:?}").contains("line: 514 bytes"));
    let (mut table, before) = (Table::default(), Table::new());
    assert_eq!(table, before);
    assert_eq!(table.set(&[0x89, 5], false), Ok(()));
    assert!(table != before && format!("{table:?}").contains("present: [0, 5, 0, 20, 6, 4, 1, 0, 1]"));
    assert!(format!("{:?}", Sender::idle(true)).contains("control: [0, 0, 1, 0, "));
}
