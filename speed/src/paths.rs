//! Every call of the library, and the peer's, on inputs that reach their paths, for the measure of their stack.

use motikhund::constants::{BLOCK_VALUES, FRAMER_CONTROL_SIZE, HEAD_VALUES, HUB_CONTROL_SIZE, HUB_VALUES, LINE_SIZE};
use motikhund::constants::{READER_CONTROL_SIZE, READER_VALUES, SENDER_CONTROL_SIZE, SWITCH_VALUES};
use motikhund::raw::*;
use second::form;
use second::kept::KeptTable;
use second::packet::*;
use second::reader::ALL;
use second::sender::PIECE;
use second::table::{Table, ROWS};

use crate::calls::{Event, Machine, Sender, ACK, BLOCK, BLOCK_ANSWERS, HUB_ANSWER, MESSAGE, NAK_RESEND, PACKET};
use crate::calls::{READER_ANSWER, SET, TABLE, TIME_OUT};
use crate::peer::{self, *};
use crate::proved::RawHub;
use crate::stack::{calibrate, measured, Depths, Tells};
use crate::streams::{self, Dice, Stream};

/// What a start tells: the size of the copy, and whether a message gap is due before it.
const START_VALUES: usize = 2;

/// Refusals 1, 2 and 3.
fn add_broken(stream: &mut Stream, opcode: u8, source: u8) {
    let mut packet = lay_out(opcode, source, 0, &[0; PIECE + 1]);
    *packet.last_mut().expect("a packet has bytes") ^= 1;
    stream.add(&packet, Event::CharacterGap);
    stream.add(&[3], Event::CharacterGap);
    stream.add(&[4, opcode], Event::MessageGap);
}

/// What a hub and a framer hear.
fn from_reader() -> Stream {
    let dice = &mut Dice::new(2);
    let message = dice.bytes(MESSAGE);
    let mut stream = streams::garbage(dice, MESSAGE);
    stream.add(&[], Event::MessageGap);
    stream.add_message(1, &message);
    stream.add_packet(DECODE_DATA, READER, 0, &[2]);
    stream.add_packet(DECODE_DATA, READER, MARK, &[2]);
    stream.add_packet(CMD_ACK, READER, 0, &[]);
    stream.add_packet(DECODE_DATA, HOST, 0, &[2]);
    stream.add_packet(DECODE_DATA, READER, !0, &[2]);
    stream.add_packet(BEEP, READER, 0, &[2]);
    stream.add_packet(DECODE_DATA, READER, 0, &[]);
    add_broken(&mut stream, DECODE_DATA, READER);
    // Another type, then a bar, then a total that is too high.
    stream.add_packet(DECODE_DATA, READER, MORE, &message[..PIECE]);
    stream.add_packet(DECODE_DATA, READER, MORE, &[!message[0]]);
    stream.add_packet(DECODE_DATA, READER, MORE, &[!message[0]]);
    stream.add(&[], Event::MessageGap);
    for _ in 0..=MESSAGE.div_ceil(PIECE) {
        stream.add_packet(DECODE_DATA, READER, MORE, &message[..PIECE + 1]);
    }
    stream
}

/// Commands, right and wrong.
fn from_host() -> Stream {
    let dice = &mut Dice::new(3);
    let most = streams::parameters(dice, MOST_DATA / 2);
    let every: Vec<u8> = (0..MOST_DATA).map(|i| !i as u8).filter(|number| *number != ALL).collect();
    let mut wrong = most.clone();
    *wrong.last_mut().expect("a value") = 100;
    let mut stream = streams::commands(dice, PACKET);
    for mark in [0, MARK] {
        stream.add_packet(PARAM_SEND, HOST, PERMANENT | mark, &most);
    }
    // Answers go out again after this.
    stream.add_packet(PARAM_DEFAULTS, HOST, 0, &[]);
    for numbers in [&every, &[ALL; MOST_DATA].to_vec()] {
        for mark in [0, MARK] {
            stream.add_packet(PARAM_REQUEST, HOST, mark, numbers);
        }
    }
    stream.add_packet(BEEP, READER, 0, &[0]);
    stream.add_packet(BEEP, HOST, !0, &[0]);
    stream.add_packet(DECODE_DATA, HOST, 0, &[0]);
    stream.add_packet(BEEP, HOST, 0, &[]);
    stream.add_packet(BEEP, HOST, 0, &[!0]);
    stream.add_packet(PARAM_SEND, HOST, 0, &wrong);
    add_broken(&mut stream, PARAM_SEND, HOST);
    stream
}

macro_rules! tells {
    ($($told:ty),*) => {
        $(impl Tells for $told {
            fn number(&self) -> u32 {
                self.number.into()
            }
        })*
    };
}

tells!(Checked, Built, CHubTold, CBlockTold, CSent, CReaderTold);

fn packets(depths: &mut Depths, stream: &Stream) {
    let (mut room, mut head, mut size) = ([0; PACKET], [0; HEAD_VALUES], 0);
    for (part, _) in stream.parts() {
        measured!(depths, mk_check(part.as_ptr(), part.len(), &mut head));
        measured!(depths, peer_check(part.as_ptr(), part.len()));
    }
    for length in [room.len(), room.len() - 1] {
        for (source, status, carried) in [(READER, 0, MOST_DATA), (HOST, !0, 0), (!0, 0, 0), (HOST, 0, PACKET)] {
            let data = [0; PACKET];
            measured!(
                depths,
                mk_build(room.as_mut_ptr(), length, BEEP, source, status, data.as_ptr(), carried, &mut size)
            );
            measured!(depths, peer_build(room.as_mut_ptr(), length, BEEP, source, status, data.as_ptr(), carried));
        }
    }
    for source in [HOST, !0] {
        for (reply, length) in [(ACK, room.len()), (NAK_RESEND, room.len()), (ACK, HUB_ANSWER - 1)] {
            measured!(depths, mk_answer(room.as_mut_ptr(), length, source, reply, &mut size));
        }
    }
    for (opcode, source, carried) in [(CMD_ACK, HOST, 0), (CMD_NAK, HOST, 1), (CMD_NAK, READER, 1), (BEEP, HOST, 2)] {
        let data = [1; 2];
        measured!(depths, mk_sender_heed(opcode, source, 0, data.as_ptr(), carried));
    }
}

fn framer(depths: &mut Depths, stream: &Stream) {
    let (mut control, mut line, mut head) = ([0; FRAMER_CONTROL_SIZE], [0; PACKET], [0; HEAD_VALUES]);
    measured!(depths, mk_framer_idle(control.as_mut_ptr(), control.len()));
    stream.events(|event| {
        let (control, line) = (&mut control[..], &mut line[..]);
        measured!(
            depths,
            mk_framer_hear(
                control.as_mut_ptr(),
                control.len(),
                line.as_mut_ptr(),
                line.len(),
                event.number(),
                &mut head
            )
        );
    });
}

fn hub(depths: &mut Depths, stream: &Stream) {
    let mut control = [0; HUB_CONTROL_SIZE];
    let (mut line, mut gather) = ([0; LINE_SIZE], [0; MESSAGE]);
    let (mut answer, mut message, mut values) = ([0; HUB_ANSWER], [0; MESSAGE], [0; HUB_VALUES]);
    measured!(depths, mk_hub_on(control.as_mut_ptr(), control.len()));
    let mut peer = peer::Hub::new();
    stream.events(|event| {
        let mut front = *control.first_chunk().expect("a control value has a front");
        measured!(depths, mk_go_on(&mut front, &mut line.clone(), event.number()));
        measured!(
            depths,
            mk_hub_hear(
                control.as_mut_ptr(),
                control.len(),
                &mut line,
                &mut gather,
                answer.as_mut_ptr(),
                answer.len(),
                message.as_mut_ptr(),
                message.len(),
                event.number(),
                &mut values,
            )
        );
        measured!(depths, peer_hub_event(&mut *peer.0, event.number()));
    });
}

/// A hub and the peer's, each call of which is lent the same room.
struct Hubs {
    proved: RawHub,
    peer: peer::Hub,
    answers: [u8; BLOCK_ANSWERS],
}

impl Hubs {
    /// One call of each. Gives how many bytes were taken.
    fn block(&mut self, depths: &mut Depths, bytes: &[u8], room: usize) -> usize {
        let Hubs { proved: RawHub { control, line, gather, message, .. }, peer, answers } = self;
        let mut values = [0; BLOCK_VALUES];
        measured!(
            depths,
            mk_hub_hear_block(
                control.as_mut_ptr(),
                control.len(),
                &mut *line,
                &mut *gather,
                answers.as_mut_ptr(),
                room,
                message.as_mut_ptr(),
                message.len(),
                bytes.as_ptr(),
                bytes.len(),
                &mut values,
            )
        );
        measured!(depths, peer_hub_block(&mut *peer.0, bytes.as_ptr(), bytes.len(), answers.as_mut_ptr(), room));
        let [.., taken] = values;
        taken
    }

    /// A gap is no part of a block.
    fn gap(&mut self, gap: Event) {
        self.proved.event(gap);
        self.peer.event(gap);
    }
}

/// Each part in blocks of several sizes, in rooms for one answer or many; and blocks that are refused.
fn hub_blocks(depths: &mut Depths, stream: &Stream) {
    let mut hubs = Hubs { proved: RawHub::new(), peer: peer::Hub::new(), answers: [0; BLOCK_ANSWERS] };
    for (room, size) in [(BLOCK_ANSWERS, BLOCK), (HUB_ANSWER, BLOCK), (HUB_ANSWER, 1), (BLOCK_ANSWERS, 100)] {
        for (part, gap) in stream.parts() {
            let mut left = part;
            while !left.is_empty() {
                let taken = hubs.block(depths, &left[..left.len().min(size)], room);
                left = &left[taken..];
            }
            hubs.gap(gap);
        }
    }
    hubs.block(depths, &[], HUB_ANSWER);
    hubs.block(depths, &[0; BLOCK + 1], HUB_ANSWER);
    hubs.block(depths, &[0], HUB_ANSWER - 1);
}

/// Sizes of messages of equal bytes, and what a sender hears while they are out: four are delivered, of which one has
/// pieces that are cut and one equals the one before it; two fail, one is too long.
fn errands() -> [(usize, Vec<u32>); 7] {
    let delivered = [TIME_OUT, NAK_RESEND].into_iter().chain([ACK; MESSAGE.div_ceil(PIECE)]).collect();
    [
        (MESSAGE, delivered),
        (0, vec![ACK, ACK, TIME_OUT]),
        (PIECE, vec![ACK]),
        (PIECE, vec![ACK]),
        (PIECE + 1, vec![TIME_OUT; 3]),
        (PIECE, vec![NAK_RESEND + 1]),
        (MESSAGE + 1, vec![]),
    ]
}

fn sender(depths: &mut Depths) {
    let (mut control, mut buffer) = ([0; SENDER_CONTROL_SIZE], [0; MESSAGE]);
    let (mut room, mut values, mut value) = ([0; PACKET], [0; START_VALUES], 0);
    let message = [0; MESSAGE + 1];
    measured!(depths, mk_sender_idle(control.as_mut_ptr(), control.len(), true));
    let mut peer = peer::Sender::new();
    for (size, heard) in errands() {
        for _ in 0..2 {
            measured!(
                depths,
                mk_sender_start(
                    control.as_mut_ptr(),
                    control.len(),
                    &mut buffer,
                    room.as_mut_ptr(),
                    room.len(),
                    0,
                    message.as_ptr(),
                    size,
                    &mut values,
                )
            );
            measured!(depths, peer_sender_send(&mut *peer.0, 0, message.as_ptr(), size));
            measured!(depths, mk_sender_waits(control.as_ptr(), control.len()));
        }
        for heard in heard {
            measured!(
                depths,
                mk_sender_hear(
                    control.as_mut_ptr(),
                    control.len(),
                    &buffer,
                    room.as_mut_ptr(),
                    room.len(),
                    heard,
                    &mut value,
                )
            );
            measured!(depths, peer_sender_heard(&mut *peer.0, heard));
        }
        measured!(depths, mk_sender_waits(control.as_ptr(), control.len()));
    }
}

/// The reader's whole end, with the rooms lent to it, and the peer's beside it.
struct End {
    control: [u8; READER_CONTROL_SIZE],
    line: [u8; LINE_SIZE],
    answers: [u8; READER_ANSWER],
    message: [u8; MESSAGE],
    answer: [u8; READER_ANSWER],
    copy: [u8; PACKET],
    values: [usize; READER_VALUES],
    value: usize,
    peer: peer::Reader,
}

impl End {
    fn new() -> End {
        End {
            control: [0; READER_CONTROL_SIZE],
            line: [0; LINE_SIZE],
            answers: [0; READER_ANSWER],
            message: [0; MESSAGE],
            answer: [0; READER_ANSWER],
            copy: [0; PACKET],
            values: [0; READER_VALUES],
            value: 0,
            peer: peer::Reader::new(),
        }
    }

    fn hear(&mut self, depths: &mut Depths, stream: &Stream) {
        let End { control, line, answers, message, answer, copy, values, peer, .. } = self;
        stream.events(|event| {
            measured!(
                depths,
                mk_reader_hear(
                    control.as_mut_ptr(),
                    control.len(),
                    &mut *line,
                    &mut *answers,
                    &*message,
                    answer.as_mut_ptr(),
                    answer.len(),
                    copy.as_mut_ptr(),
                    copy.len(),
                    event.number(),
                    &mut *values,
                )
            );
            measured!(depths, peer_reader_event(&mut *peer.0, event.number()));
        });
    }

    fn start(&mut self, depths: &mut Depths, size: usize) {
        let End { control, message, copy, peer, .. } = self;
        let (bytes, mut values) = ([0; MESSAGE + 1], [0; START_VALUES]);
        measured!(
            depths,
            mk_reader_start(
                control.as_mut_ptr(),
                control.len(),
                &mut *message,
                copy.as_mut_ptr(),
                copy.len(),
                0,
                bytes.as_ptr(),
                size,
                &mut values,
            )
        );
        measured!(depths, peer_reader_send(&mut *peer.0, 0, bytes.as_ptr(), size));
    }

    fn time_out(&mut self, depths: &mut Depths) {
        let End { control, message, copy, value, peer, .. } = self;
        measured!(
            depths,
            mk_reader_time_out(
                control.as_mut_ptr(),
                control.len(),
                &*message,
                copy.as_mut_ptr(),
                copy.len(),
                &mut *value,
            )
        );
        measured!(depths, peer_reader_expire(&mut *peer.0));
    }

    fn save(&mut self, depths: &mut Depths) {
        let End { control, value, peer, .. } = self;
        let mut room = [0; SET];
        for size in [0, SET] {
            measured!(depths, mk_reader_save(control.as_ptr(), control.len(), room.as_mut_ptr(), size, &mut *value));
            measured!(depths, peer_reader_save(&*peer.0, room.as_mut_ptr(), size));
        }
        for number in 0..=255 {
            measured!(depths, mk_reader_locked(control.as_ptr(), control.len(), number, &mut *value));
        }
    }

    fn load(&mut self, depths: &mut Depths, form: &[u8]) {
        let End { control, peer, .. } = self;
        measured!(depths, mk_reader_load(control.as_mut_ptr(), control.len(), form.as_ptr(), form.len()));
        measured!(depths, peer_reader_load(&mut *peer.0, form.as_ptr(), form.len()));
    }

    /// A table put in and taken out again, with all control bytes and with one too few.
    fn board(&mut self, depths: &mut Depths, table: &KeptTable) {
        let End { control, .. } = self;
        let mut out = [0; TABLE];
        for size in [control.len(), control.len() - 1] {
            measured!(depths, mk_reader_put_table(control.as_mut_ptr(), size, table.0.as_ptr().cast()));
            measured!(depths, mk_reader_table(control.as_ptr(), size, out.as_mut_ptr().cast()));
        }
    }
}

/// Saved sets, written and read: right ones with every number of locks, and spoiled at each place.
fn sets(depths: &mut Depths, end: &mut End) {
    for locked in 0..=ROWS.len() {
        let table = Table { locks: std::array::from_fn(|place| place < locked), ..Table::house_defaults() };
        let form = form::save(&table);
        end.load(depths, &form);
        end.save(depths);
        for at in 0..form.len() {
            end.load(depths, &form[..at]);
            let mut wrong = form.clone();
            wrong[at] = !wrong[at];
            end.load(depths, &wrong);
        }
    }
}

/// Tables with every number of locks, and with a value that is not allowed at each place, present and permanent.
fn boards(depths: &mut Depths, end: &mut End) {
    let mut table = KeptTable([0; TABLE]);
    table.defaults();
    let locks = 2 * ROWS.len();
    for lock in locks..TABLE {
        end.board(depths, &table);
        table.0[lock] = 1;
    }
    end.board(depths, &table);
    for value in 0..locks {
        let mut wrong = table;
        wrong.0[value] = !0;
        end.board(depths, &wrong);
    }
}

/// A board's own table with every number of locks: each kind of list, for now and for ever.
fn table(depths: &mut Depths) {
    let dice = &mut Dice::new(4);
    let most = &streams::parameters(dice, MOST_DATA)[1..];
    let lists = [&[][..], most, &most[1..], &[!0, 0], &[most, &[0x9C, 0]].concat()];
    for locked in 0..=ROWS.len() {
        let mut proved = [!0; TABLE];
        proved[TABLE - ROWS.len()..][..locked].fill(1);
        let mut peer = proved;
        for (pairs, permanent) in lists.into_iter().flat_map(|pairs| [(pairs, false), (pairs, true)]) {
            let (at, count) = (pairs.as_ptr(), pairs.len());
            measured!(depths, mk_table_set(proved.as_mut_ptr().cast(), at, count, permanent));
            measured!(depths, peer_table_set(peer.as_mut_ptr().cast(), at, count, permanent));
        }
        measured!(depths, mk_table_set_defaults(proved.as_mut_ptr().cast()));
        measured!(depths, peer_table_defaults(peer.as_mut_ptr().cast()));
        measured!(depths, mk_table_power_up(proved.as_mut_ptr().cast()));
        measured!(depths, peer_table_power_up(peer.as_mut_ptr().cast()));
    }
}

fn reader(depths: &mut Depths, commands: &Stream) {
    let mut end = End::new();
    measured!(depths, mk_reader_on(end.control.as_mut_ptr(), end.control.len()));
    end.hear(depths, commands);
    for number in 0..=255 {
        let control = &end.control;
        measured!(depths, mk_reader_value(control.as_ptr(), control.len(), number, &mut end.value));
    }
    let control = &end.control;
    measured!(depths, mk_reader_switches(control.as_ptr(), control.len(), &mut [0; SWITCH_VALUES]));
    for (size, heard) in errands() {
        end.start(depths, size);
        end.start(depths, size);
        end.hear(depths, commands);
        for heard in heard {
            let mut answer = Stream::default();
            match heard {
                TIME_OUT => end.time_out(depths),
                ACK => answer.add_packet(CMD_ACK, HOST, 0, &[]),
                cause => answer.add_packet(CMD_NAK, HOST, 0, &[cause as u8]),
            }
            end.hear(depths, &answer);
        }
    }
    sets(depths, &mut end);
    boards(depths, &mut end);
    end.hear(depths, commands);
    measured!(depths, mk_reader_power_up(end.control.as_mut_ptr(), end.control.len()));
}

/// The depths of all calls of the library (`mk_..`) and of the peer (`peer_..`).
pub fn depths() -> Result<Depths, String> {
    calibrate()?;
    let mut depths = Depths::new();
    let line = from_reader();
    packets(&mut depths, &line);
    framer(&mut depths, &line);
    hub(&mut depths, &line);
    hub_blocks(&mut depths, &line);
    // All of a message in few calls, with many answers to each.
    hub_blocks(&mut depths, &line.joined(MESSAGE.div_ceil(PIECE)));
    sender(&mut depths);
    table(&mut depths);
    reader(&mut depths, &from_host());
    Ok(depths)
}
