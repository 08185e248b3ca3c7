//! The reader's end of the line.

use motikhund::constants::*;
use motikhund::lent::reader;
use motikhund::{Event, Outcome, ReaderTold};

use crate::lines::Lines;
use crate::notation::{size, End, Further, Shape, Token, ROOM};

/// `S tt bb .. ;`: the code type, and one byte more than the longest message has, so that a longer one is refused.
const START: Shape =
    Shape { letter: b'S', closing: b';', least: 1, most: 1 + MESSAGE_SIZE + 1, further: Further::Dropped };

/// `L bb .. ;`: the form of a set, and one byte more than the longest has, so that a longer one is refused.
const LOAD: Shape = Shape { letter: b'L', closing: b';', least: 0, most: SET_SIZE + 1, further: Further::Dropped };

/// A reader with an answer room of any size. Its control bytes have their size, so no call refuses them.
pub struct Reader {
    control: [u8; READER_CONTROL_SIZE],
    line: [u8; LINE_SIZE],
    answers: [u8; READER_ANSWER_SIZE],
    message: [u8; MESSAGE_SIZE],
    answer: Vec<u8>,
    copy: [u8; PACKET_SIZE],
}

impl Reader {
    pub fn new() -> Self {
        let mut control = [0; READER_CONTROL_SIZE];
        let _ = reader::on(&mut control);
        Reader {
            control,
            line: [0; LINE_SIZE],
            answers: [0; READER_ANSWER_SIZE],
            message: [0; MESSAGE_SIZE],
            answer: vec![0; READER_ANSWER_SIZE],
            copy: [0; PACKET_SIZE],
        }
    }

    fn time_out(&mut self, lines: &mut Lines) {
        sent(reader::time_out(&mut self.control, &self.message, &mut self.copy), lines);
    }

    fn power_up(&mut self, _: &mut Lines) {
        let _ = reader::power_up(&mut self.control);
    }

    fn start(&mut self, bytes: &[u8], lines: &mut Lines) {
        if let [code, message @ ..] = bytes {
            sent(reader::start(&mut self.control, &mut self.message, &mut self.copy, *code, message), lines);
        }
    }

    fn save(&mut self, lines: &mut Lines) {
        lines.bytes(b'W', reader::save(&self.control, &mut [0; SET_SIZE]).unwrap_or_default());
    }

    fn load(&mut self, bytes: &[u8], lines: &mut Lines) {
        match reader::load(&mut self.control, bytes) {
            Ok(()) => lines.bytes(b'L', []),
            Err(why) => lines.refusal(why),
        }
    }

    fn values(&mut self, lines: &mut Lines) {
        lines.bytes(b'U', &reader::table(&self.control).unwrap_or_default().present);
    }

    fn lend(&mut self, bytes: &[u8], _: &mut Lines) {
        self.answer.resize(size(bytes), 0);
    }
}

impl End for Reader {
    const TOKENS: &'static [Token<Reader>] = &[
        Token::Alone(b'T', Reader::time_out),
        Token::Alone(b'P', Reader::power_up),
        Token::With(START, Reader::start),
        Token::Alone(b'U', Reader::values),
        Token::With(ROOM, Reader::lend),
        Token::Alone(b'W', Reader::save),
        Token::With(LOAD, Reader::load),
    ];

    fn hear(&mut self, event: Event, lines: &mut Lines) {
        let Reader { control, line, answers, message, answer, copy } = self;
        match reader::hear(control, line, answers, message, answer, copy, event) {
            ReaderTold::Nothing => {}
            ReaderTold::Repeated { answer } => lines.answer(answer),
            ReaderTold::Refused { why, answer } => {
                lines.refusal(why);
                lines.answer(answer);
            }
            ReaderTold::Acted { beep, answer, .. } => {
                if let Some(beep) = beep {
                    lines.numbers(b'B', [beep.duration, beep.pitch, beep.count].map(usize::from));
                }
                let on = reader::switches(control).unwrap_or_default();
                lines.numbers(b'G', [on.scanning, on.session, on.aim, on.led].map(usize::from));
                lines.answer(answer);
            }
            ReaderTold::Copy(copy) => sent(Outcome::Copy { copy, gap: false }, lines),
            ReaderTold::Delivered { copies } => sent(Outcome::Delivered { copies }, lines),
            ReaderTold::Failed { copies } => sent(Outcome::Failed { copies }, lines),
        }
    }
}

/// What the sender did.
fn sent(outcome: Outcome, lines: &mut Lines) {
    match outcome {
        Outcome::Nothing => {}
        Outcome::Copy { copy, gap } => {
            if gap {
                lines.bytes(b'I', []);
            }
            lines.bytes(b'C', copy);
        }
        Outcome::Delivered { copies } => lines.numbers(b'D', [copies]),
        Outcome::Failed { copies } => lines.numbers(b'F', [copies]),
        Outcome::Refused(why) => lines.refusal(why),
    }
}
