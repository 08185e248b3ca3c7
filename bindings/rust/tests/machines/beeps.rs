//! The beep codes (docs/PROTOCOL.md §13), and what the commands switch.

use motikhund::constants::*;
use motikhund::lent::reader;
use motikhund::{Beep, Reader, ReaderTold, Refusal, Switches};

use crate::notation::{command, nak, reader_ack, reader_hears, sent};

/// The allowed codes in order: twenty of one to five beeps, then the ten that are like no other.
fn rows() -> Vec<Beep> {
    let plain = [DURATION_SHORT, DURATION_LONG]
        .into_iter()
        .flat_map(|duration| [PITCH_HIGH, PITCH_LOW].map(|pitch| (duration, pitch)))
        .flat_map(|(duration, pitch)| [1, 2, 3, 4, 5].map(|count| (duration, pitch, count)));
    let other = [
        (DURATION_FAST_WARBLE, PITCH_HIGH_LOW_HIGH_LOW, 4),
        (DURATION_SLOW_WARBLE, PITCH_HIGH_LOW_HIGH_LOW, 4),
        (DURATION_MIX_1, PITCH_HIGH_LOW, 2),
        (DURATION_MIX_2, PITCH_LOW_HIGH, 2),
        (DURATION_MIX_3, PITCH_HIGH_LOW_HIGH, 3),
        (DURATION_MIX_4, PITCH_LOW_HIGH_LOW, 3),
        (DURATION_LONG, PITCH_HIGH_HIGH_LOW_LOW, 4),
        (DURATION_SHORT, PITCH_HIGH_HIGH_HIGH, 13),
        (DURATION_HIGH_CLICK, PITCH_HIGH, 1),
        (DURATION_LOW_CLICK, PITCH_LOW_CLICK, 1),
    ];
    plain.chain(other).map(|(duration, pitch, count)| Beep { duration, pitch, count }).collect()
}

#[test]
fn each_code_reports_its_row() {
    assert_eq!(rows().len(), 0x1E);
    for (code, row) in (0..).zip(rows()) {
        let sounds = ReaderTold::Acted { beep: Some(row), permanent: false, answer: &reader_ack() };
        for beep in [command(OPCODE_BEEP, &[code]), command(OPCODE_PARAM_SEND, &[code])] {
            assert_eq!(reader_hears(&mut Reader::new(), &sent(&beep)), sounds);
        }
    }
}

#[test]
fn other_codes_are_refused() {
    let refused = ReaderTold::Refused { why: Refusal::Beep, answer: &nak(SOURCE_READER, 6) };
    for code in 0x1E..=0xFF {
        assert_eq!(reader_hears(&mut Reader::new(), &sent(&command(OPCODE_BEEP, &[code]))), refused);
        let silent = ReaderTold::Acted { beep: None, permanent: false, answer: &reader_ack() };
        let told = if code == 0xFF { silent } else { refused };
        assert_eq!(reader_hears(&mut Reader::new(), &sent(&command(OPCODE_PARAM_SEND, &[code]))), told);
    }
}

#[test]
fn commands_switch() {
    let steps: [(u8, &[u8], [u8; 4]); 12] = [
        (OPCODE_START_SESSION, &[], [1, 1, 0, 0]),
        (OPCODE_AIM_ON, &[], [1, 1, 1, 0]),
        (OPCODE_LED_ON, &[1], [1, 1, 1, 1]),
        (OPCODE_SCAN_DISABLE, &[], [0, 0, 1, 1]),
        (OPCODE_START_SESSION, &[], [0, 0, 1, 1]),
        (OPCODE_SCAN_ENABLE, &[], [1, 0, 1, 1]),
        (OPCODE_START_SESSION, &[], [1, 1, 1, 1]),
        (OPCODE_STOP_SESSION, &[], [1, 0, 1, 1]),
        (OPCODE_LED_OFF, &[2], [1, 0, 1, 1]),
        (OPCODE_LED_OFF, &[1], [1, 0, 1, 0]),
        (OPCODE_AIM_OFF, &[], [1, 0, 0, 0]),
        (OPCODE_PARAM_DEFAULTS, &[], [1, 0, 0, 0]),
    ];
    let mut reader = Reader::new();
    for (opcode, data, on) in steps {
        let acted = ReaderTold::Acted { beep: None, permanent: false, answer: &reader_ack() };
        assert_eq!(reader_hears(&mut reader, &sent(&command(opcode, data))), acted);
        let [scanning, session, aim, led] = on.map(|on| on == 1);
        assert_eq!(reader.switched(), Switches { scanning, session, aim, led });
    }
}

/// Among the control bytes 1 is on and any other byte is off.
#[test]
fn switches_of_any_bytes() {
    for byte in 0..=255 {
        let on = byte == 1;
        let all = Switches { scanning: on, session: on, aim: on, led: on };
        assert_eq!(reader::switches(&[byte; READER_CONTROL_SIZE]), Ok(all));
    }
}
