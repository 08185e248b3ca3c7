//! What may come to a reader's end: commands, answers, and the reader's own starts, time-outs, power-ups and saved
//! sets.

use super::cards;
use super::damage::{contents, cut, damaged};
use super::sets::{self, bad_value, good_value};
use super::{Hand, Line, Stream};
use crate::dice::Dice;
use crate::form;
use crate::framer::{Framer, LineEvent};
use crate::hub::LONGEST_MESSAGE;
use crate::packet::*;
use crate::reader::{Reader, ALL, ANSWER_ROOM};
use crate::table::{ACK_NAK, HIGHEST_BEEP, NO_BEEP, ROWS, TRIGGER};
use crate::watch_reader::{ReaderLook, ReaderWatch};

/// Numbers beside the nine, and some of the sources' other ones.
const UNSUPPORTED: [u8; 17] =
    [0x00, 0x01, 0x7F, 0x81, 0x88, 0x8B, 0x9A, 0x9D, 0xA0, 0xEC, 0xEF, 0xF0, 0xF1, 0xF4, 0xF8, 0xFD, 0xFF];
const PLAIN: [u8; 7] = [PARAM_DEFAULTS, START_SESSION, STOP_SESSION, SCAN_ENABLE, SCAN_DISABLE, AIM_ON, AIM_OFF];

/// How many forms are kept, to be loaded again.
const SAVED: usize = 4;

pub struct FromHost {
    dice: Dice,
    hand: Hand,
    reader: Reader,
    watch: ReaderWatch,
    /// How many answers of a hundred are ACKs, drawn anew for each message.
    kindness: usize,
    /// Forms saved not long ago.
    saved: Vec<Vec<u8>>,
    /// The message started last, with its code type in front.
    started: Vec<u8>,
}

impl Line for FromHost {
    fn dice(&mut self) -> &mut Dice {
        &mut self.dice
    }

    fn hand(&mut self) -> &mut Hand {
        &mut self.hand
    }

    fn take(&mut self, event: LineEvent) {
        self.hand.pen.line(event);
        let before = ReaderLook::at(&self.reader);
        let step = self.reader.take_in_room(event, self.hand.room());
        self.watch.line(before, event, &step, &self.reader);
    }

    fn room_set(&mut self) {
        self.watch.room_set(self.hand.room());
    }

    fn framer(&self) -> &Framer {
        self.reader.framer()
    }

    fn last_accepted(&self) -> Option<Vec<u8>> {
        self.reader.last_accepted().map(<[u8]>::to_vec)
    }

    fn rare_state(&self) -> bool {
        self.reader.sender().waits()
    }

    fn aside(&mut self) {
        if self.hand.rooms.as_mut().is_some_and(|rooms| rooms.dice().chance(2)) {
            self.show();
        }
    }

    fn fresh(&mut self) {
        self.plain_command();
    }

    fn alter(&mut self, status: &mut u8, data: &mut Vec<u8>) {
        match self.dice.weigh(&[70, 8, 6, 8, 4]) {
            0 => {}
            1 => *status &= !MARK,
            2 => *status ^= PERMANENT,
            3 => {
                if let Some(last) = data.last_mut() {
                    *last ^= 1;
                }
            }
            _ => *status |= MORE,
        }
    }

    fn done(self) -> Stream {
        self.hand.done(self.watch.sights)
    }

    fn step(&mut self) {
        if self.reader.sender().waits() {
            match self.dice.weigh(&[50, 12, 4, 34]) {
                0 => self.answer_or_time_out(),
                1 => self.disturb(),
                2 => self.start(),
                _ => self.step_on_commands(),
            }
        } else {
            match self.dice.weigh(&[9, 6, 3, 82]) {
                0 => self.start(),
                1 => self.answer_or_time_out(),
                2 => self.card_again(),
                _ => self.step_on_commands(),
            }
        }
    }
}

impl FromHost {
    /// For desk, rooms and shows are drawn too.
    pub fn new(seed: u64, desk: bool) -> FromHost {
        let mut dice = Dice::new(seed);
        let hand = Hand::new(dice.next(), desk.then_some(ANSWER_ROOM));
        FromHost {
            dice,
            hand,
            reader: Reader::new(),
            watch: ReaderWatch::new(desk),
            kindness: 50,
            saved: Vec::new(),
            started: vec![0x1B],
        }
    }

    fn step_on_commands(&mut self) {
        match self.dice.weigh(&[12, 8, 6, 22, 12, 8, 14, 4, 5, 8, 2, 6, 1]) {
            0 => self.plain_command(),
            1 => self.beep(),
            2 => self.led(),
            3 => self.param_send(),
            4 => self.param_request(),
            5 => self.handshaking(),
            6 => self.resend_last(),
            7 => self.resend_kept(),
            8 => self.any_packet(),
            9 => self.disturb(),
            10 => self.power_up(),
            11 => self.sets(),
            _ => self.pair_at_an_edge(),
        }
    }

    // The reader's own events.

    pub fn show(&mut self) {
        self.hand.pen.aside(b'U');
        self.watch.shown(ReaderLook::at(&self.reader));
    }

    pub fn time_out(&mut self) {
        self.hand.pen.sign(b'T');
        let before = ReaderLook::at(&self.reader);
        let step = self.reader.time_out();
        self.watch.time_out(before, &step);
    }

    /// Anywhere: between packets, inside one, while deaf, with a message out.
    fn power_up(&mut self) {
        if self.dice.chance(40) {
            let packet = self.some_command();
            let part = cut(&mut self.dice, &packet);
            self.send(&part);
        }
        let last = self.last_accepted();
        self.power_up_alone();
        if self.dice.chance(30) {
            self.save();
        }
        self.resend_forgotten(last);
    }

    pub fn power_up_alone(&mut self) {
        self.hand.pen.sign(b'P');
        self.watch.power_up(ReaderLook::at(&self.reader));
        self.reader.power_up();
    }

    fn message_size(&mut self) -> usize {
        match self.dice.weigh(&[80, 80, 500, 120, 80, 40, 20, 20, 6]) {
            0 => 0,
            1 => 1,
            2 => self.dice.between(2, 20),
            3 => self.dice.pick(&[249, 250, 251]),
            4 => self.dice.pick(&[499, 500, 501, 750, 751]),
            5 => self.dice.between(600, 2_000),
            6 => self.dice.pick(&[LONGEST_MESSAGE - 1, LONGEST_MESSAGE, LONGEST_MESSAGE]),
            7 => self.dice.pick(&[LONGEST_MESSAGE + 1, LONGEST_MESSAGE + 1, LONGEST_MESSAGE + 2]),
            _ => self.dice.between(LONGEST_MESSAGE + 1, 6_000),
        }
    }

    fn start(&mut self) {
        let waits = self.reader.sender().waits();
        // One that will be refused for the one out need not be long as well.
        let size = if waits && self.dice.chance(90) { self.dice.below(5) } else { self.message_size() };
        let mut message = vec![cards::code_type(&mut self.dice)];
        message.extend(contents(&mut self.dice, size));
        if !waits {
            self.kindness = if size > 1_000 { 97 } else { self.dice.pick(&[95, 70, 40, 15]) };
        }
        self.start_message(&message);
        if !waits && size > 1_000 && self.dice.chance(70) {
            self.carry_through();
        }
    }

    /// Code type and bytes.
    pub fn start_message(&mut self, message: &[u8]) {
        self.hand.pen.start(message);
        let before = ReaderLook::at(&self.reader);
        let step = self.reader.start(message[0], &message[1..]);
        self.watch.start(before, message, &step);
        if step.refusal.is_none() {
            self.started = message.to_vec();
        }
    }

    pub fn waits(&self) -> bool {
        self.reader.sender().waits()
    }

    /// A message, then several that equal its last packet or nearly do, with something between them or nothing.
    fn card_again(&mut self) {
        let message = match self.dice.weigh(&[50, 35, 15]) {
            0 => cards::card(&mut self.dice),
            1 => cards::alike(&mut self.dice),
            _ => self.started.clone(),
        };
        self.start_and_carry(&message);
        for _ in 0..self.dice.between(1, 4) {
            let card = self.packet_before();
            self.between_cards();
            let message = cards::near(&mut self.dice, &card);
            self.start_and_carry(&message);
        }
    }

    /// Code type and last piece of the message before. Where there is none, it was forgotten at a power-up: then of the
    /// one started last, if it had a single piece.
    fn packet_before(&mut self) -> Vec<u8> {
        match self.reader.sender().before() {
            Some(packet) => packet[HEADER..].to_vec(),
            None if self.started.len() <= MOST_DATA => self.started.clone(),
            None => cards::card(&mut self.dice),
        }
    }

    fn start_and_carry(&mut self, message: &[u8]) {
        self.kindness = if message.len() > 1_000 { 97 } else { self.dice.pick(&[97, 97, 70, 15]) };
        self.start_message(message);
        match self.dice.weigh(&[85, 10, 5]) {
            0 => {}
            1 => self.start(),
            _ => self.power_up_alone(),
        }
        self.carry_through();
    }

    fn between_cards(&mut self) {
        match self.dice.weigh(&[30, 20, 15, 10, 10, 5, 10]) {
            0 => {}
            1 => self.plain_command(),
            2 => self.disturb(),
            3 => self.some_set(),
            4 => self.power_up_alone(),
            5 => {
                let message = vec![0x38; 1 + LONGEST_MESSAGE + 1];
                self.start_message(&message);
            }
            _ => self.step_on_commands(),
        }
    }

    /// Answers a long message to its end, with few other things between.
    fn carry_through(&mut self) {
        while self.reader.sender().waits() {
            self.answer_or_time_out();
            if self.dice.chance(4) {
                self.step_on_commands();
            }
            self.event(LineEvent::Gap);
        }
    }

    // Answers.

    fn answer_or_time_out(&mut self) {
        if self.dice.chance(self.kindness) {
            return self.answer(CMD_ACK, &[]);
        }
        match self.dice.weigh(&[35, 30, 5, 30]) {
            0 => self.time_out(),
            1 => self.answer(CMD_NAK, &[1]),
            2 => {
                let cause = self.dice.pick(&[0, 2, 3, 6, 10, 255]);
                self.answer(CMD_NAK, &[cause]);
            }
            _ => self.odd_answer(),
        }
    }

    fn answer(&mut self, opcode: u8, data: &[u8]) {
        let status = self.dice.pick(&[0, 0, 0, 0, 1]);
        self.packet(&lay_out(opcode, HOST, status, data));
    }

    /// An answer with one fault, or with several.
    fn odd_answer(&mut self) {
        let is_ack = self.dice.chance(50);
        let opcode = if is_ack { CMD_ACK } else { CMD_NAK };
        let mut source = HOST;
        let mut status = 0;
        let mut size = usize::from(!is_ack);
        let fault = self.dice.below(4);
        if fault == 0 || fault == 3 {
            source = self.dice.pick(&[READER, 1, 3, 5, 255]);
        }
        if fault == 1 || fault == 3 {
            status = self.dice.pick(&[2, 3, 4, 8, 9, 0x10, 0x80, 255]);
        }
        if fault == 2 || fault == 3 {
            size = if is_ack { self.dice.between(1, 2) } else { self.dice.pick(&[0, 2, 3]) };
        }
        self.packet(&lay_out(opcode, source, status, &[1, 1, 6][..size]));
    }

    // Commands.

    fn status(&mut self) -> u8 {
        self.dice.pick(&[0, 0, 0, 0, 0, 0, 0, 1, 8, 9])
    }

    fn command(&mut self, opcode: u8, data: &[u8]) {
        let status = self.status();
        self.whole(lay_out(opcode, HOST, status, data));
    }

    fn plain_command(&mut self) {
        let opcode = self.dice.pick(&PLAIN);
        self.command(opcode, &[]);
    }

    fn good_code(&mut self) -> u8 {
        self.dice.between(0, usize::from(HIGHEST_BEEP)) as u8
    }

    /// Neither allowed nor FFh: either end of these, or between them.
    fn bad_code(&mut self) -> u8 {
        let (low, high) = (HIGHEST_BEEP + 1, NO_BEEP - 1);
        let inside = self.dice.between(usize::from(low), usize::from(high)) as u8;
        self.dice.pick(&[low, high, inside])
    }

    fn beep(&mut self) {
        let code = match self.dice.weigh(&[75, 20, 5]) {
            0 => self.good_code(),
            1 => self.bad_code(),
            _ => NO_BEEP,
        };
        self.command(BEEP, &[code]);
    }

    fn led(&mut self) {
        let opcode = self.dice.pick(&[LED_ON, LED_OFF]);
        let data = self.dice.pick(&[1, 1, 1, 0, 2, 0xFE, 0xFF]);
        self.command(opcode, &[data]);
    }

    // Parameters.

    fn good_pair(&mut self) -> [u8; 2] {
        let mut row = self.dice.pick(&ROWS);
        if row[0] == ACK_NAK && self.dice.chance(60) {
            // 9Fh has a step of its own; drawn here as often as the others it would be off too much.
            row = ROWS[0];
        }
        [row[0], good_value(&mut self.dice, row)]
    }

    /// A value that is not allowed, or a number beside the nine.
    fn bad_pair(&mut self) -> [u8; 2] {
        if self.dice.chance(25) {
            return [self.dice.pick(&UNSUPPORTED), self.dice.pick(&[0, 1, 255])];
        }
        let row = self.dice.pick(&ROWS);
        [row[0], bad_value(&mut self.dice, row)]
    }

    fn beep_byte(&mut self) -> u8 {
        match self.dice.weigh(&[55, 40, 5]) {
            0 => NO_BEEP,
            1 => self.good_code(),
            _ => self.bad_code(),
        }
    }

    fn param_send_packet(&mut self) -> Vec<u8> {
        let pairs = match self.dice.weigh(&[8, 50, 40, 8, 1]) {
            0 => 0,
            1 => 1,
            2 => self.dice.between(2, 5),
            3 => self.dice.between(6, 20),
            _ => 125,
        };
        let mut data = vec![self.beep_byte()];
        for _ in 0..pairs {
            data.extend(self.good_pair());
        }
        self.name_twice(&mut data);
        if pairs > 0 && self.dice.chance(25) {
            let at = 1 + 2 * self.dice.below(pairs);
            let bad = self.bad_pair();
            data[at..at + 2].copy_from_slice(&bad);
        }
        let status = self.dice.pick(&[0, 0, 0, 0, 8, 8, 1, 9]);
        lay_out(PARAM_SEND, HOST, status, &data)
    }

    /// Puts the number of one pair into another as well, with a value of its own, good or bad.
    fn name_twice(&mut self, data: &mut [u8]) {
        let pairs = data.len() / 2;
        if pairs < 2 || self.dice.chance(70) {
            return;
        }
        let row = self.dice.pick(&ROWS);
        let first = self.dice.below(pairs - 1);
        let second = self.dice.between(first + 1, pairs - 1);
        for pair in [first, second] {
            data[1 + 2 * pair] = row[0];
            data[2 + 2 * pair] = good_value(&mut self.dice, row);
        }
        if self.dice.chance(20) {
            data[2 + 2 * first] = row[2] + 1;
        }
    }

    fn param_send(&mut self) {
        let packet = self.param_send_packet();
        self.whole(packet);
    }

    /// One pair alone, at an end of its range or just outside: the pair by itself decides.
    fn pair_at_an_edge(&mut self) {
        let [number, low, high, _] = self.dice.pick(&ROWS);
        let mut values = vec![low, high, high + 1];
        values.extend(low.checked_sub(1));
        if number == TRIGGER {
            values.extend(0..=9);
        }
        let value = self.dice.pick(&values);
        let status = self.dice.pick(&[0, 8]);
        self.whole(lay_out(PARAM_SEND, HOST, status, &[NO_BEEP, number, value]));
    }

    /// 9Fh the other way, and that packet resent.
    fn handshaking(&mut self) {
        let on = self.reader.table().handshaking();
        if on && self.dice.chance(35) {
            // It is to be on more than off.
            return self.plain_command();
        }
        if !on && self.reader.table().locked(ACK_NAK) && self.dice.chance(60) {
            // Only another set can turn it on.
            let set = sets::free(&mut self.dice);
            return self.load(&form::save(&set));
        }
        let mut data = vec![self.beep_byte(), ACK_NAK, u8::from(!on)];
        if self.dice.chance(20) {
            data.extend(self.good_pair());
        }
        let (opcode, data) =
            if !on && self.dice.chance(15) { (PARAM_DEFAULTS, &[][..]) } else { (PARAM_SEND, &data[..]) };
        let status = self.dice.pick(&[0, 0, 0, 8]);
        self.whole(lay_out(opcode, HOST, status, data));
        for _ in 0..self.dice.below(3) {
            self.packet(&lay_out(opcode, HOST, status | MARK, data));
        }
    }

    fn param_request(&mut self) {
        let size = match self.dice.weigh(&[30, 40, 15, 3, 2]) {
            0 => 1,
            1 => self.dice.between(2, 5),
            2 => self.dice.between(6, 12),
            3 => 0,
            _ => self.dice.pick(&[250, 251, 251]),
        };
        let strange = self.dice.chance(10);
        let mut data: Vec<u8> =
            (0..size)
                .map(|_| {
                    if strange || self.dice.chance(12) {
                        self.dice.pick(&UNSUPPORTED)
                    } else {
                        self.dice.pick(&ROWS)[0]
                    }
                })
                .collect();
        if size > 0 && self.dice.chance(20) {
            let at = self.dice.below(size);
            data[at] = ALL;
        }
        self.command(PARAM_REQUEST, &data);
    }

    // Saved sets.

    pub fn save(&mut self) {
        self.hand.pen.aside(b'W');
        let form = self.reader.save();
        self.watch.save(ReaderLook::at(&self.reader), &form);
        if self.saved.len() == SAVED {
            self.saved.swap_remove(self.dice.below(SAVED));
        }
        self.saved.push(form);
    }

    pub fn load(&mut self, form: &[u8]) {
        self.hand.pen.load(form);
        let before = ReaderLook::at(&self.reader);
        let loaded = self.reader.load(form);
        self.watch.load(before, form, loaded);
    }

    fn sets(&mut self) {
        match self.dice.weigh(&[45, 15, 15, 25]) {
            0 => self.some_set(),
            1 => self.set_inside(),
            2 => self.set_before_resend(),
            _ => self.locked_ones(),
        }
        // Most of the other steps want parameters that can be set.
        if self.reader.table().locks.contains(&true) && self.dice.chance(50) {
            let set = sets::free(&mut self.dice);
            self.load(&form::save(&set));
        }
    }

    /// Loads a right form, spoiled ones or one saved before, or saves one.
    fn some_set(&mut self) {
        match self.dice.weigh(&[30, 35, 15, 20]) {
            0 => {
                let set = sets::good(&mut self.dice);
                self.load(&form::save(&set));
            }
            1 => self.bad_forms(),
            2 if !self.saved.is_empty() => {
                let form = self.saved[self.dice.below(self.saved.len())].clone();
                self.load(&form);
            }
            _ => self.save(),
        }
    }

    /// Several in a row: they change nothing, and there are many ways to be wrong.
    fn bad_forms(&mut self) {
        for _ in 0..self.dice.between(1, 8) {
            let form = sets::bad_form(&mut self.dice);
            self.load(&form);
        }
    }

    /// In the middle of a packet, which goes on after it; or while the reader is deaf.
    fn set_inside(&mut self) {
        if self.dice.chance(20) {
            self.send(&[3]);
            return self.some_set();
        }
        let packet = self.some_command();
        let at = self.dice.between(1, packet.len() - 1);
        self.send(&packet[..at]);
        self.some_set();
        self.send(&packet[at..]);
        self.after_packet();
    }

    /// Between a command and its marked copy.
    fn set_before_resend(&mut self) {
        let packet = self.some_command();
        self.whole(packet);
        let last = self.last_accepted();
        self.some_set();
        if let Some(body) = last {
            self.resend(&body);
        }
    }

    /// A set with locks, and what they hold against.
    fn locked_ones(&mut self) {
        let set = sets::locked(&mut self.dice);
        self.load(&form::save(&set));
        for _ in 0..self.dice.between(1, 5) {
            match self.dice.weigh(&[50, 20, 10, 10, 10]) {
                0 => self.name_locked(),
                1 => self.command(PARAM_DEFAULTS, &[]),
                2 => self.power_up(),
                3 => self.pair_at_an_edge(),
                _ => self.save(),
            }
        }
    }

    /// A PARAM_SEND that names a locked parameter, alone or among others, with the value that it has or another.
    fn name_locked(&mut self) {
        let table = *self.reader.table();
        let (locked, free): (Vec<usize>, Vec<usize>) = (0..ROWS.len()).partition(|place| table.locks[*place]);
        if locked.is_empty() {
            return self.param_send();
        }
        let place = self.dice.pick(&locked);
        let value = if self.dice.chance(50) { table.present[place] } else { good_value(&mut self.dice, ROWS[place]) };
        let mut pairs = vec![[ROWS[place][0], value]];
        for _ in 0..self.dice.pick(&[0, 0, 1, 3]).min(free.len()) {
            let row = ROWS[self.dice.pick(&free)];
            let at = self.dice.between(0, pairs.len());
            pairs.insert(at, [row[0], good_value(&mut self.dice, row)]);
        }
        let data = [vec![self.beep_byte()], pairs.concat()].concat();
        let status = self.dice.pick(&[0, 0, PERMANENT, PERMANENT, MARK]);
        self.whole(lay_out(PARAM_SEND, HOST, status, &data));
    }

    // Everything else.

    fn some_command(&mut self) -> Vec<u8> {
        match self.dice.below(6) {
            0 => self.param_send_packet(),
            1 => lay_out(BEEP, HOST, 0, &[self.good_code()]),
            2 => lay_out(PARAM_REQUEST, HOST, 0, &[ALL]),
            3 => lay_out(CMD_ACK, HOST, 0, &[]),
            4 => lay_out(self.dice.pick(&[LED_ON, LED_OFF]), HOST, 0, &[1]),
            _ => lay_out(self.dice.pick(&PLAIN), HOST, 0, &[]),
        }
    }

    fn disturb(&mut self) {
        match self.dice.weigh(&[45, 30, 12, 13]) {
            0 => {
                let packet = self.some_command();
                let packet = damaged(&mut self.dice, &packet);
                self.packet(&packet);
            }
            1 => {
                let packet = self.some_command();
                let packet = cut(&mut self.dice, &packet);
                self.packet(&packet);
            }
            2 => self.garbage(),
            _ => self.gaps(),
        }
    }

    /// A right checksum around any fields.
    fn any_packet(&mut self) {
        let near = [DECODE_DATA, DECODE_DATA, 0xC3, 0xC9, 0xE3, 0xEB, 0xD2, 0xCF, 0xF0, PARAM_SEND, BEEP, LED_ON, 0];
        let opcode = match self.dice.weigh(&[50, 30, 20]) {
            0 => self.dice.pick(&near),
            1 => self.dice.pick(&COMMANDS),
            _ => self.dice.byte(),
        };
        let source = self.dice.pick(&[HOST, HOST, HOST, HOST, HOST, READER, 1, 255]);
        let status = self.dice.pick(&[0, 0, 0, 1, 2, 2, 3, 4, 8, 0x10, 0x20, 0x40, 0x80, 255]);
        let size = self.dice.pick(&[0, 1, 2, 3, 7]);
        let data = contents(&mut self.dice, size);
        self.packet(&lay_out(opcode, source, status, &data));
    }
}
