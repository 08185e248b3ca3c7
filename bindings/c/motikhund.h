// Motikhund for C: the serial protocol core of a card reader and of the hub behind it, in Simple Serial Interface
// (SSI).
//
// A reader sends what it read as a message: a code type and 0 to 4,096 bytes, cut into pieces of up to 250 bytes with a
// packet each. The hub answers each packet with ACK or NAK and joins the pieces. Where no answer comes, the reader
// sends the packet again with a resend mark; a hub that has it already acknowledges it and does not add it twice. So
// that a packet is never taken for a resend of an equal one before it, a piece that would equal the one before it is
// cut one byte shorter, and a start says where a message gap is due. The other way, a host (the hub's side) sends
// commands to the reader: beeps, LED, aim, session, parameters.
//
// You bring the serial port and the clock. What happens on the line goes in as events, one at a time: a byte, a
// character gap (a silence that ends a packet) or a message gap (a longer one, at which a hub forgets all that came
// before). A hub also takes what a serial port hands over as a block, all its bytes in one call. What is to be sent
// stands in a buffer of yours, and a number says what happened: 0 for nothing, 1 to 15 for a refusal, 100 and above for
// all else. docs/PROTOCOL.md says what each of them means on the line.
//
// Most firmware needs only the last part of this file: the types mk_hub, mk_reader, mk_framer and mk_sender hold
// all buffers, and short functions work on them. bindings/c/example.c is a whole program. To build from the root of
// the repository, or with what `bindings/install PREFIX` put below PREFIX (PKG_CONFIG_PATH is PREFIX/lib/pkgconfig):
//
//     gcc -std=c11 -I bindings/c firmware.c target/staticlib/libmotikhund.a -Wl,--gc-sections
//     gcc -std=c11 firmware.c $(pkg-config --cflags --libs motikhund) -Wl,--gc-sections
//
// With --gc-sections a program carries only the calls that it uses: one with a hub alone has no code of the reader.
//
// The archive is for x86-64 Linux and needs no other library. No call allocates, waits, or keeps anything between
// calls. Each is proved (crates/motikhund) to end and to read and write only what it is lent, whatever bytes stand
// there. Only this is left to you, as C cannot say it: every pointer is valid for the length given with it, or for the
// number in its brackets, and is not NULL, even for a length of 0; and the buffers that one call is lent do not
// overlap. They are bytes, so they may stand anywhere: no alignment is asked for.
//
// Threads and interrupts
//
// A machine (a control value with its buffers) is used from one context at a time; different machines share nothing. An
// event's cost has a bound: most events of a line are a mk_go_on of some thirty instructions without a loop; the last
// byte of a packet takes a hub some 2,500 at most (the packet is summed and compared, a message of 4,096 bytes copied),
// a reader some 10,000 (a PARAM_REQUEST with 251 numbers). So there are two right ways to receive by interrupt:
//
// - The interrupt puts what came into a queue, in order, and the main loop gives it to the machine. The plain way.
// - The interrupt makes every call of this machine itself and hands on what was told, with a copy of the bytes that it
//   names: the next event may write over them. Then the main loop calls nothing of this machine, or does so with that
//   interrupt masked: mk_reader_send, mk_reader_expire, mk_reader_parameter, mk_reader_save and mk_reader_table too.
//
// mk_go_on in the interrupt and the other calls in the main loop is wrong on one machine: the interrupt may come while
// the main loop is inside a call, and an event that mk_go_on left must be taken before any later one. It becomes right
// where the interrupt gives an event to mk_go_on only if none is queued and the main loop is in no call of this
// machine, and queues it else. That is the first way again, with a queue that is empty most of the time.
//
// Where DMA receives, what it has filled is such a queue: the main loop gives it to the hub as a block. No gap is among
// the bytes of a block, so it ends where the line falls idle, and the gap is given behind it. A block of 4,096 bytes
// costs what its bytes cost one by one, less the calls between them.
//
// Timing and duties (more in docs/PROTOCOL.md §15)
//
// Three silences are yours to measure, each shorter than the next: the character gap, the reader's response time-out
// (parameter 9Bh) and the message gap.
//
// - The time-out runs from the last byte of a copy. It is longer than the hub's longest delay before an answer, the
//   answer itself (up to MK_ANSWER_SIZE bytes of 10 bits, 11 with parity; 10 bits take 1.04 ms at 9,600 baud) and the
//   character gap behind it. These are the floor: wait no less, even where 9Bh is 0.
// - The message gap is longer than the longest silence that a hub hears inside a message: two time-outs, for two copies
//   of a packet may be lost in a row, with these copies and the delays between them (docs/PROTOCOL.md §15 reckons it).
//   One that came sooner would make the hub forget the packet, and file its resend as a second message. Who changes 9Bh
//   keeps the message gap longer.
// - An answer comes before its copy's time-out or not at all. A late ACK would count for the next packet, and the loss
//   of that one go unseen. So a hub that is late sends nothing, and a reader drops all that it hears while it sends.
// - At MK_MESSAGE the message is whole in its room, and its ACK is not yet sent. Send it, then do slow work. Where
//   filing surely ends before the time-out, file first: then a power cut loses nothing that was called delivered.
// - Both ends keep silent for a character gap after all that they send. A reader keeps silent for a message gap before
//   the first copy of a message in just two cases: where the start says that one is due (mk_outcome.gap), and before
//   the first message after power-up, as power-up forgets what a start says it by. A start says it after a failed
//   message, as the hub may hold pieces of that one; and where the message is one packet, equal to the one sent before
//   it: were its first copy lost, the hub would take the resend for one of the packet before. No packets need be
//   compared for it, and two equal cards in a row come out as two.
// - That silence counts from the last byte that the reader sent, whatever it was: where that is long ago, nothing is
//   left to wait. The message is out already. So while it waits the reader drops what it hears, as while it sends: an
//   ACK would count for a packet that nobody has seen, and an answer to a command would end the silence.
// - MK_DELIVERED: the hub has the message. MK_FAILED: it may have it all the same, and only its answers were lost.
// - A silence that grows may be given again. A second character gap does nothing. A message gap behind a character gap
//   does what it does alone, and a second message gap nothing more. So a timer that fires twice does no harm.
// - A reader's permanent values and locks outlast power-off as a saved set, 21 to 30 bytes: mk_reader_save whenever an
//   event tells that a permanent value changed, and after each mk_reader_load that brought a new set; at switch-on
//   mk_reader_init, then mk_reader_load. A memory that is blank (all FFh, or all 0) is MK_FORM, and the house defaults
//   stay. A set is not bound to MK_VERSION, as a control value is. It has no checksum of its own: where the power may
//   fail while it is written, keep two, each with a checksum. A hub keeps nothing.
#ifndef MOTIKHUND_H
#define MOTIKHUND_H

#include <stdbool.h>
#include <stddef.h>
#include <stdint.h>

// The version of header, archive and Rust crate; as a number major * 10,000 + minor * 100 + patch. Minor or major rises
// with each change of what stands where in a control value, the patch with every other landing. So whoever stores a
// control value stores MK_VERSION_NUMBER with it, and puts it back only where MK_VERSION_NUMBER / 100 is the same;
// else it is initialised anew.
#define MK_VERSION "0.4.2"
#define MK_VERSION_NUMBER 402

#ifdef __cplusplus
#define MK_ASSERT(truth, why) static_assert(truth, why)
#define MK_ALIGNMENT(type) alignof(type)
extern "C" {
#else
#define MK_ASSERT(truth, why) _Static_assert(truth, why)
#define MK_ALIGNMENT(type) _Alignof(type)
#endif

MK_ASSERT(sizeof(size_t) == 8, "the archive is for x86-64 Linux");

// ---- constants
//
// In Rust they have the same names without MK_ (motikhund::constants); the refusals are its enum Refusal.

// Sizes in bytes. A call that is lent less gives MK_ROOM.
enum {
    MK_FRAMER_CONTROL_SIZE = 9,   // a framer's control value
    MK_HUB_CONTROL_SIZE = 29,     // a hub's
    MK_SENDER_CONTROL_SIZE = 44,  // a sender's
    MK_READER_CONTROL_SIZE = 101, // a reader's
    MK_GOING_SIZE = 10,           // the front of a hub's or a reader's, for mk_go_on
    MK_PACKET_SIZE = 257,         // the longest packet with its checksum: building, a framer's line, a copy
    MK_LINE_SIZE = 514,           // the line of hub and reader: the packet that comes in, and the last accepted one
    MK_MESSAGE_SIZE = 4096,       // the longest message, its code type not counted
    MK_ANSWER_SIZE = 7,           // the longest ACK or NAK
    MK_HUB_ANSWER_SIZE = 7,       // a hub's answer room
    MK_READER_ANSWER_SIZE = 25,   // a reader's longest answer: a PARAM_SEND with all nine parameters
    MK_SET_SIZE = 30,             // the longest form of a saved set: all nine parameters are locked
    MK_DATA_SIZE = 251,           // the most data in a packet
    MK_BLOCK_SIZE = 4096          // the most bytes in a block; more of them are MK_LONG
};

// Events on a line.
enum {
    MK_CHARACTER_GAP = 256, // 0 to 255 are the byte that came; this is a silence that ends a packet
    MK_MESSAGE_GAP = 257    // a longer silence; any number above is no event, does nothing and tells MK_NOTHING
};

// What a sender hears of the host, and what mk_answer writes.
enum {
    MK_REPLY_ACK = 256,      // mk_answer: an ACK; 0 to 255 are a NAK with that cause; any number above writes nothing
    MK_HEARD_ACK = 256,      // sender: an ACK came; 0 to 255 are a NAK with that cause
    MK_HEARD_TIME_OUT = 257, // sender: no answer came in time
    MK_HEARD_NOTHING = 258   // sender: nothing that it heeds; any number above means it too
};

// Refusals (docs/PROTOCOL.md §6). Behind each, how hub and reader answer it on the line. A reader sends no NAK where
// parameter 9Fh is 0, and none for 1 to 3 while a message is out.
enum {
    MK_LENGTH = 1,    // a packet's length below 4; NAK 1
    MK_CHECKSUM = 2,  // wrong checksum; NAK 1
    MK_CUT = 3,       // a packet cut by a gap, or too few bytes; NAK 1
    MK_SOURCE = 4,    // a source that is wrong for this side; NAK 2
    MK_STATUS = 5,    // a status bit that is not allowed; NAK 2
    MK_OPCODE = 6,    // an opcode unknown to this side; NAK 2
    MK_DATA = 7,      // a data length wrong for the opcode; NAK 2. A list for a table that ends inside a pair
    MK_BEEP = 8,      // a beep code that is not allowed; NAK 6
    MK_SETTING = 9,   // a parameter or value that is not allowed, or a parameter that is locked; NAK 6
    MK_BARRED = 10,   // hub: another type inside a message, or too long; then all decode data to a message gap; NAK 6
    MK_START = 11,    // sender: a message over 4,096 bytes, or one still out; no answer
    MK_FORM = 12,     // reader: bytes that are not the form of a set, or one with a value not allowed; no answer
    MK_ROOM = 13,     // something is lent too small: nothing is changed, and the event is not taken; no answer
    MK_LONG = 15      // more bytes than a call takes: nothing is changed, and none is taken; no answer
};

// What a call tells that is no refusal.
enum {
    MK_NOTHING = 0,     // nothing to tell
    MK_PACKET = 100,    // a packet was found
    MK_WRITTEN = 101,   // a packet or a set was written
    MK_ADDED = 110,     // hub: a piece was added to the message
    MK_REPEATED = 111,  // a resend of what was accepted already: answered again, and nothing else done
    MK_MESSAGE = 112,   // hub: a message is whole
    MK_COPY = 120,      // sender: a packet stands in the copy room and is to be sent
    MK_DELIVERED = 121, // sender: the message is at the hub
    MK_FAILED = 122,    // sender: the message is given up
    MK_OUT = 123,       // sender: a message is out
    MK_ACTED = 130      // reader: a command was acted on
};

// The causes of a NAK.
enum {
    MK_CAUSE_RESEND = 1,  // send it again
    MK_CAUSE_CONTEXT = 2, // makes no sense here
    MK_CAUSE_DENIED = 6   // understood, and not done
};

// A packet's source.
enum {
    MK_SOURCE_READER = 0, // the reader
    MK_SOURCE_HOST = 4    // the host, so also the hub
};

// A packet's status bits; the others are 0.
enum {
    MK_STATUS_RESEND = 1,   // the resend mark
    MK_STATUS_MORE = 2,     // DECODE_DATA only: more pieces follow
    MK_STATUS_PERMANENT = 8 // PARAM_SEND: the values are to outlast power-up
};

// Opcodes.
enum {
    MK_OPCODE_AIM_OFF = 0xC4,        // no data
    MK_OPCODE_AIM_ON = 0xC5,         // no data
    MK_OPCODE_PARAM_SEND = 0xC6,     // a beep code or FFh for none, then pairs of parameter and value
    MK_OPCODE_PARAM_REQUEST = 0xC7,  // parameters, or FEh for all; answered by a PARAM_SEND
    MK_OPCODE_PARAM_DEFAULTS = 0xC8, // no data
    MK_OPCODE_CMD_ACK = 0xD0,        // no data
    MK_OPCODE_CMD_NAK = 0xD1,        // the cause
    MK_OPCODE_START_SESSION = 0xE4,  // no data
    MK_OPCODE_STOP_SESSION = 0xE5,   // no data
    MK_OPCODE_BEEP = 0xE6,           // a beep code
    MK_OPCODE_LED_ON = 0xE7,         // which LEDs; only bit 0 is looked at
    MK_OPCODE_LED_OFF = 0xE8,        // the same
    MK_OPCODE_SCAN_ENABLE = 0xE9,    // no data
    MK_OPCODE_SCAN_DISABLE = 0xEA,   // no data
    MK_OPCODE_DECODE_DATA = 0xF3     // a message's code type, then a piece of it
};

// The reader's parameters (docs/PROTOCOL.md §12); behind each its values, or its lowest and highest one, and the house
// default.
enum {
    MK_PARAMETER_POWER_MODE = 0x80,        // MK_POWER_..; MK_POWER_CONTINUOUS
    MK_PARAMETER_SAME_SYMBOL_TIME = 0x89,  // tenths of a second, 0 to 99; 10
    MK_PARAMETER_TRIGGER = 0x8A,           // MK_TRIGGER_..; MK_TRIGGER_LEVEL
    MK_PARAMETER_RESPONSE_TIME_OUT = 0x9B, // tenths of a second, 0 to 99; 20
    MK_PARAMETER_BAUD = 0x9C,              // MK_BAUD_..; MK_BAUD_9600
    MK_PARAMETER_PARITY = 0x9E,            // MK_PARITY_..; MK_PARITY_NONE
    MK_PARAMETER_ACK_NAK = 0x9F,           // MK_ACK_NAK_..; MK_ACK_NAK_ON
    MK_PARAMETER_AIM_DURATION = 0xED,      // tenths of a second, 0 (no aim pattern) to 99; 0
    MK_PARAMETER_PACKETED_DATA = 0xEE      // MK_DATA_..; MK_DATA_PACKETED
};

// Values of 80h.
enum {
    MK_POWER_CONTINUOUS = 0, // always on
    MK_POWER_LOW = 1
};

// Values of 8Ah.
enum {
    MK_TRIGGER_LEVEL = 0,
    MK_TRIGGER_PULSE = 2,
    MK_TRIGGER_CONTINUOUS = 4,
    MK_TRIGGER_BLINKING = 7,
    MK_TRIGGER_HOST = 8
};

// Values of 9Ch.
enum {
    MK_BAUD_300 = 1,
    MK_BAUD_600 = 2,
    MK_BAUD_1200 = 3,
    MK_BAUD_2400 = 4,
    MK_BAUD_4800 = 5,
    MK_BAUD_9600 = 6,
    MK_BAUD_19200 = 7
};

// Values of 9Eh.
enum {
    MK_PARITY_ODD = 0,
    MK_PARITY_EVEN = 1,
    MK_PARITY_MARK = 2,
    MK_PARITY_SPACE = 3,
    MK_PARITY_NONE = 4
};

// Values of 9Fh.
enum {
    MK_ACK_NAK_OFF = 0, // the reader sends no ACK and no NAK
    MK_ACK_NAK_ON = 1
};

// Values of EEh. The library sends packets in either case; sending raw data is left to you.
enum {
    MK_DATA_RAW = 0,
    MK_DATA_PACKETED = 1
};

// Where each parameter stands in a table (mk_table), and how many there are: in the order of their numbers.
enum {
    MK_PLACE_POWER_MODE = 0,        // 80h
    MK_PLACE_SAME_SYMBOL_TIME = 1,  // 89h
    MK_PLACE_TRIGGER = 2,           // 8Ah
    MK_PLACE_RESPONSE_TIME_OUT = 3, // 9Bh
    MK_PLACE_BAUD = 4,              // 9Ch
    MK_PLACE_PARITY = 5,            // 9Eh
    MK_PLACE_ACK_NAK = 6,           // 9Fh
    MK_PLACE_AIM_DURATION = 7,      // EDh
    MK_PLACE_PACKETED_DATA = 8,     // EEh
    MK_PLACES = 9
};

// A beep's duration and pitch (docs/PROTOCOL.md §13).
enum {
    MK_DURATION_SHORT = 0,
    MK_DURATION_LONG = 1,
    MK_DURATION_FAST_WARBLE = 2,
    MK_DURATION_SLOW_WARBLE = 3,
    MK_DURATION_MIX_1 = 4,
    MK_DURATION_MIX_2 = 5,
    MK_DURATION_MIX_3 = 6,
    MK_DURATION_MIX_4 = 7,
    MK_DURATION_HIGH_CLICK = 8,
    MK_DURATION_LOW_CLICK = 9
};
enum {
    MK_PITCH_HIGH = 0,
    MK_PITCH_LOW = 1,
    MK_PITCH_HIGH_LOW_HIGH_LOW = 2,
    MK_PITCH_HIGH_LOW = 3,
    MK_PITCH_LOW_HIGH = 4,
    MK_PITCH_HIGH_LOW_HIGH = 5,
    MK_PITCH_LOW_HIGH_LOW = 6,
    MK_PITCH_HIGH_HIGH_LOW_LOW = 7,
    MK_PITCH_HIGH_HIGH_HIGH = 8,
    MK_PITCH_LOW_CLICK = 9
};

// Where each value stands that a call tells beside its number, and how many there are.
// Of mk_check and mk_framer_hear, a packet's head:
enum {
    MK_HEAD_LENGTH = 0, // of the packet without its checksum, so of the data and 4 more
    MK_HEAD_OPCODE = 1,
    MK_HEAD_SOURCE = 2,
    MK_HEAD_STATUS = 3,
    MK_HEAD_VALUES = 4
};
// Of mk_hub_hear:
enum {
    MK_HUB_VALUE_ANSWER = 0, // so many bytes of the answer room are to be sent
    MK_HUB_VALUE_CODE = 1,   // MK_MESSAGE: its code type
    MK_HUB_VALUE_COUNT = 2,  // MK_MESSAGE: so many bytes of the message room
    MK_HUB_VALUES = 3
};
// Of mk_hub_hear_block:
enum {
    MK_BLOCK_VALUE_ANSWER = 0, // so many bytes of the answer room are to be sent: all answers, one after the other
    MK_BLOCK_VALUE_CODE = 1,   // MK_MESSAGE: its code type
    MK_BLOCK_VALUE_COUNT = 2,  // MK_MESSAGE: so many bytes of the message room
    MK_BLOCK_VALUE_TAKEN = 3,  // so many bytes were taken; those behind them are to be given again
    MK_BLOCK_VALUES = 4
};
// Of mk_sender_start and mk_reader_start:
enum {
    MK_START_VALUE_SIZE = 0, // MK_COPY: so many bytes of the room are to be sent
    MK_START_VALUE_GAP = 1,  // MK_COPY: 1 where a message gap is due before this copy, else 0
    MK_START_VALUES = 2
};
// Of mk_reader_hear:
enum {
    MK_READER_VALUE_ANSWER = 0,    // so many bytes of the answer room are to be sent
    MK_READER_VALUE_DURATION = 1,  // MK_ACTED: the beep's, MK_DURATION_..
    MK_READER_VALUE_PITCH = 2,     // MK_ACTED: the beep's, MK_PITCH_..
    MK_READER_VALUE_COUNT = 3,     // MK_ACTED: how many beeps; 0: none
    MK_READER_VALUE_SENT = 4,      // MK_COPY: so many bytes of the copy room are to be sent
                                   // MK_DELIVERED, MK_FAILED: the message's marked copies
    MK_READER_VALUE_PERMANENT = 5, // MK_ACTED: 1 where a permanent value changed, so that it is time to save; else 0
    MK_READER_VALUES = 6
};
// Of mk_reader_switches, each 1 or 0:
enum {
    MK_SWITCH_SCANNING = 0, // scanning is enabled
    MK_SWITCH_SESSION = 1,  // a session is on
    MK_SWITCH_AIM = 2,      // the aim is on
    MK_SWITCH_LED = 3,      // the LED is on
    MK_SWITCH_VALUES = 4
};

// ---- the parameter table
//
// A board may keep a table of parameters itself and have it altered where it stands (mk_table_set, mk_table_set_defaults,
// mk_table_power_up), or take it out of a reader and put it back (mk_reader_table, mk_reader_put_table). Each parameter
// has its place in all three rows, MK_PLACE_.., and two values: the present one holds now, the permanent one is the
// present one again after power-up.
//
// A lock is a byte: 1 where the parameter is locked, any other byte where it is not. So any 27 bytes are some table,
// also where values stand in it that no parameter takes. Locks are yours to write; the three calls above that alter a
// table write values alone and leave each lock's byte as it is, whatever it is.
//
// Zeros given to mk_table_set_defaults are the house defaults with nothing locked (mk_table_init does both).
typedef struct {
    uint8_t present[MK_PLACES];
    uint8_t permanent[MK_PLACES];
    uint8_t locked[MK_PLACES];
} mk_table;
MK_ASSERT(sizeof(mk_table) == 27 && MK_ALIGNMENT(mk_table) == 1, "mk_table");

// ---- the calls of the archive
//
// A control value is all that a machine remembers beside its buffers. It stands in bytes of yours, and any bytes are
// one: a flag's byte that is not 1 is read as not set, a count that a buffer cannot have as 0, and a sender's that no
// run leaves as one with nothing out and no packet before. Where a call asks for a size, more may be lent; bytes past
// what is written stay as they were.
//
// A machine's buffers are its own between calls, also where nothing is begun or out: a hub's line and gather, a
// reader's line and answers, and the buffer of a sender or a reader, in which the message stands while it is out, and
// its last packet until the next start. Whoever writes into that one with nothing out can only make a start tell a
// message gap that is not due, or none where one is. What goes out to you (answer, copy, the hub's message) is yours.
//
// With MK_ROOM, MK_START, MK_FORM and MK_LONG nothing is changed but the numbers told (head, size, value, values),
// which are 0; they are 0 too where a result has none. With any other refusal of an event only its answer, the byte
// that came in the line, and the control value are written: the packet begun has ended, MK_LENGTH and MK_CHECKSUM make
// deaf, MK_BARRED bars the hub with nothing gathered, and all else in it stays as it was read (so a flag's byte that
// was neither 0 nor 1 is written as 0).
//
// What mk_table_set and mk_reader_put_table refuse changes nothing at all, whichever refusal it is.
//
// An event above MK_MESSAGE_GAP changes nothing at all and tells MK_NOTHING, with values of 0. So does a reply above
// MK_REPLY_ACK. MK_ROOM is tested before, as at every call.

// Judges the front of some bytes. MK_PACKET, and the head. The data begin at bytes[4] and have length - 4 bytes; the
// packet has length + 2 bytes, and those behind it are not read. Or MK_CUT (too few bytes, or none), MK_LENGTH,
// MK_CHECKSUM.
uint32_t mk_check(const uint8_t *bytes, size_t bytes_len, size_t head[MK_HEAD_VALUES]);

// Builds a packet at the front of a room of MK_PACKET_SIZE. MK_WRITTEN and the packet's size. Or MK_ROOM; MK_SOURCE
// (only 0 and 4 are sources); MK_STATUS; MK_DATA (over MK_DATA_SIZE bytes of data). Any opcode is taken.
uint32_t mk_build(uint8_t *room, size_t room_len, uint8_t opcode, uint8_t source, uint8_t status, const uint8_t *data,
    size_t data_len, size_t *size);

// Builds an ACK or a NAK at the front of a room of MK_ANSWER_SIZE; reply is MK_REPLY_ACK or the NAK's cause.
// MK_WRITTEN and the packet's size. Or, in this order, MK_ROOM; MK_NOTHING for any other reply; MK_SOURCE.
uint32_t mk_answer(uint8_t *room, size_t room_len, uint8_t source, uint32_t reply, size_t *size);

// Makes a framer's control value (MK_FRAMER_CONTROL_SIZE): nothing begun. MK_NOTHING, or MK_ROOM.
uint32_t mk_framer_idle(uint8_t *control, size_t control_len);

// One event of a line, cut into packets; the line buffer has MK_PACKET_SIZE. MK_PACKET: the packet stands at the
// front of the line buffer until the next event, with its head as of mk_check. MK_LENGTH and MK_CHECKSUM, at which
// the framer ignores all up to the next gap; MK_CUT; MK_NOTHING; MK_ROOM.
uint32_t mk_framer_hear(uint8_t *control, size_t control_len, uint8_t *line, size_t line_len, uint32_t event,
    size_t head[MK_HEAD_VALUES]);

// The short way of hub and reader: most events of a line go it. It takes a byte or a character gap of which the framer
// tells nothing: the first byte of a packet, bytes inside it, bytes that a deaf framer ignores, a gap with nothing
// begun. control is the front of a hub's or a reader's control value, line its line. Of the control value it writes the
// count (bytes 0 to 7), and the flag behind it where a deaf framer wakes; of the line the place of the byte that came.
//
// true: the event was taken, and there is nothing to tell. It is proved that this is what mk_hub_hear or mk_reader_hear
// does with rooms of full size. false: nothing was changed, and the event is for that call, before any later one.
//
// It is lent no rooms, so it cannot tell MK_ROOM. Whoever lends rooms of their own to the calls below tests their sizes
// first; those of mk_hub and mk_reader are right. It is not for a framer alone, whose control value and line are
// smaller.
bool mk_go_on(uint8_t control[MK_GOING_SIZE], uint8_t line[MK_LINE_SIZE], uint32_t event);

// Makes a hub's control value (MK_HUB_CONTROL_SIZE): just switched on. MK_NOTHING, or MK_ROOM.
uint32_t mk_hub_on(uint8_t *control, size_t control_len);

// One event at the hub. The answer room has MK_HUB_ANSWER_SIZE, the message room MK_MESSAGE_SIZE; line and gather are
// the hub's own and only lent. MK_ADDED, MK_REPEATED, MK_MESSAGE, MK_NOTHING, a refusal from MK_LENGTH to MK_DATA,
// MK_BARRED or MK_ROOM; the values are MK_HUB_VALUE_... The message room is written at MK_MESSAGE only.
uint32_t mk_hub_hear(uint8_t *control, size_t control_len, uint8_t line[MK_LINE_SIZE], uint8_t gather[MK_MESSAGE_SIZE],
    uint8_t *answer, size_t answer_len, uint8_t *message, size_t message_len, uint32_t event,
    size_t values[MK_HUB_VALUES]);

// A block of up to MK_BLOCK_SIZE bytes with no gap among them, or of none, at the hub: it does what mk_hub_hear does
// with these bytes one by one. All answers stand one after the other at the front of the answer room. It leaves at once
// where a message is whole, and where fewer than MK_HUB_ANSWER_SIZE bytes of the answer room are left; that is looked
// at before each byte, whatever becomes of it. The values are MK_BLOCK_VALUE_.., the last of them how many bytes it
// took. Give those behind them in a next call, the rooms emptied: it takes one at least where there is one, so that
// ends. However the bytes are cut into calls, messages, answers in a row and the state behind them are the same.
//
// MK_MESSAGE; MK_LENGTH or MK_CHECKSUM, behind which the framer is deaf, so that the bytes up to the block's end are
// taken and ignored; else MK_NOTHING. A block tells one of them at most: pieces added, repeats and the refusals from
// MK_SOURCE on are answered on the line, and not told. Or, in this order, MK_ROOM, also for no bytes; MK_LONG.
uint32_t mk_hub_hear_block(uint8_t *control, size_t control_len, uint8_t line[MK_LINE_SIZE],
    uint8_t gather[MK_MESSAGE_SIZE], uint8_t *answer, size_t answer_len, uint8_t *message, size_t message_len,
    const uint8_t *bytes, size_t bytes_len, size_t values[MK_BLOCK_VALUES]);

// Makes a sender's control value (MK_SENDER_CONTROL_SIZE): nothing out, no packet before it; failed says whether the
// message before failed, so that a message gap is due. MK_NOTHING, or MK_ROOM.
uint32_t mk_sender_idle(uint8_t *control, size_t control_len, bool failed);

// Starts a message, which is copied into the buffer. MK_COPY: the first packet stands in the room (MK_PACKET_SIZE); the
// values are MK_START_VALUE_..: its size, and whether a message gap is due before it. One is after a message that
// failed, and where this packet equals the last one of the message before, which was delivered: so where the whole
// message is that packet's piece, and its code type that packet's. What a reader answered to commands between them is
// not asked. Or MK_ROOM, MK_START, which say nothing of a gap and forget nothing.
uint32_t mk_sender_start(uint8_t *control, size_t control_len, uint8_t buffer[MK_MESSAGE_SIZE], uint8_t *room,
    size_t room_len, uint8_t code, const uint8_t *message, size_t message_len, size_t values[MK_START_VALUES]);

// One thing heard of the host: MK_HEARD_ACK, a NAK's cause, MK_HEARD_TIME_OUT. MK_COPY and the packet's size: the next
// one, or the same marked, at most twice. MK_DELIVERED or MK_FAILED and the message's marked copies, all its packets
// together. MK_NOTHING, or MK_ROOM.
//
// A piece has 250 bytes, and 249 where those 250 would equal the piece before it; the last one is the rest, once that
// is at most 250. So 750 equal bytes are 250, 249, 250 and 1, and 4,096 bytes are 17 pieces, whatever they are.
uint32_t mk_sender_hear(uint8_t *control, size_t control_len, const uint8_t buffer[MK_MESSAGE_SIZE], uint8_t *room,
    size_t room_len, uint32_t heard, size_t *value);

// MK_OUT where a message is out, MK_NOTHING where none is, or MK_ROOM.
uint32_t mk_sender_waits(const uint8_t *control, size_t control_len);

// What a sender hears of a packet with these fields and data, as mk_sender_hear takes it: 0 to MK_HEARD_NOTHING.
uint32_t mk_sender_heed(uint8_t opcode, uint8_t source, uint8_t status, const uint8_t *data, size_t data_len);

// Makes a reader's control value (MK_READER_CONTROL_SIZE): switched on, house defaults. A message gap is due before the
// first message, though its start tells none. MK_NOTHING, or MK_ROOM.
uint32_t mk_reader_on(uint8_t *control, size_t control_len);

// Power-up: parameters get their permanent values, locks stay, and all that came or was out is forgotten, also whether
// the message before failed and what its last packet was. So the first start after it tells no gap, and a message gap
// is due before that message all the same. MK_NOTHING, or MK_ROOM.
uint32_t mk_reader_power_up(uint8_t *control, size_t control_len);

// As mk_sender_start, by the reader's sender.
uint32_t mk_reader_start(uint8_t *control, size_t control_len, uint8_t message[MK_MESSAGE_SIZE], uint8_t *copy,
    size_t copy_len, uint8_t code, const uint8_t *bytes, size_t bytes_len, size_t values[MK_START_VALUES]);

// As mk_sender_hear with MK_HEARD_TIME_OUT, by the reader's sender.
uint32_t mk_reader_time_out(uint8_t *control, size_t control_len, const uint8_t message[MK_MESSAGE_SIZE], uint8_t *copy,
    size_t copy_len, size_t *value);

// One event at the reader. The answer room has MK_READER_ANSWER_SIZE, the copy room MK_PACKET_SIZE; answers keeps the
// last answer for a resend. Of a command MK_ACTED, MK_REPEATED or a refusal from MK_LENGTH to MK_SETTING; of an ACK or
// NAK that the sender heeds MK_COPY, MK_DELIVERED or MK_FAILED; else MK_NOTHING or MK_ROOM. No packet is both, so one
// number tells everything; the values are MK_READER_VALUE_...
uint32_t mk_reader_hear(uint8_t *control, size_t control_len, uint8_t line[MK_LINE_SIZE],
    uint8_t answers[MK_READER_ANSWER_SIZE], const uint8_t message[MK_MESSAGE_SIZE], uint8_t *answer, size_t answer_len,
    uint8_t *copy, size_t copy_len, uint32_t event, size_t values[MK_READER_VALUES]);

// Writes the permanent values and the locks as the form of a set, at the front of a room of MK_SET_SIZE: byte 1; byte 9
// and nine pairs of parameter and value; how many are locked, and which; parameters always in rising order. So it has
// 21 bytes and one more for each that is locked, and each set has one form. MK_WRITTEN and its size; or MK_ROOM.
uint32_t mk_reader_save(const uint8_t *control, size_t control_len, uint8_t *room, size_t room_len, size_t *size);

// Reads the form of a set, of just so many bytes. MK_NOTHING: its values are the permanent and the present ones, its
// locks the only ones, and the last accepted packet is forgotten, so that a marked repeat of it is a command like any
// other. All else stays: a packet begun, a message out, what a start tells of a gap, what is switched on. Nothing goes
// out on the line. Or, in this order, MK_FORM; MK_ROOM.
uint32_t mk_reader_load(uint8_t *control, size_t control_len, const uint8_t *form, size_t form_len);

// Whether a parameter is locked, 1 or 0; 0 where there is no such parameter. Only a set or a table that is put into the
// reader locks and unlocks. A PARAM_SEND that names a locked one is MK_SETTING, and PARAM_DEFAULTS leaves it both its
// values. MK_NOTHING, or MK_ROOM.
uint32_t mk_reader_locked(const uint8_t *control, size_t control_len, uint8_t number, size_t *value);

// The present value of a parameter, 0 where there is no such parameter. MK_NOTHING, or MK_ROOM.
uint32_t mk_reader_value(const uint8_t *control, size_t control_len, uint8_t number, size_t *value);

// What the commands have switched on; the values are MK_SWITCH_... MK_NOTHING, or MK_ROOM.
uint32_t mk_reader_switches(const uint8_t *control, size_t control_len, size_t values[MK_SWITCH_VALUES]);

// Takes a reader's table out: present values, permanent values and locks, each lock as 1 or 0. The reader keeps its
// own. MK_NOTHING; or MK_ROOM, and the table is left as it was.
uint32_t mk_reader_table(const uint8_t *control, size_t control_len, mk_table *table);

// Puts a table into a reader. MK_NOTHING: its values, present and permanent, and its locks are the reader's, and they
// hold at once. The last accepted packet is forgotten, as by mk_reader_load: a resent equal of it is performed anew and
// not answered from memory, because that answer would claim a change that the table put back may have undone. All else
// stays: a packet begun, a message out, what a start tells of a gap, what is switched on. Nothing goes out on the line.
// Or, in this order, MK_ROOM; MK_SETTING where a value, present or permanent, is not one that its parameter takes. Then
// every control byte stays.
//
// Give the reader no event between taking out and putting back: what a host set in between would be lost. Then it is
// time for mk_reader_save where a permanent value or a lock changed, and to set the port anew where 9Ch or 9Eh did.
uint32_t mk_reader_put_table(uint8_t *control, size_t control_len, const mk_table *table);

// Sets a list of pairs, number and value, where the table stands: all or nothing, as a PARAM_SEND with these pairs does
// at a reader. Without permanent the present values change, with it both; parameters that are not named keep both
// theirs. Of a number named twice the later value holds. Any number of pairs is taken; none is taken too, and changes
// nothing. MK_NOTHING; or, in this order, MK_DATA for an odd number of bytes, so a number with nothing behind it;
// MK_SETTING for a number that is not supported, a value that is not allowed or a parameter that is locked, also where
// it has that value already. On both not a byte of the table changes.
uint32_t mk_table_set(mk_table *table, const uint8_t *pairs, size_t pairs_len, bool permanent);

// Every parameter that is not locked gets its house default, present and permanent, as PARAM_DEFAULTS does it.
void mk_table_set_defaults(mk_table *table);

// The permanent values become the present ones, those of locked parameters too, as at a reader's power-up.
void mk_table_power_up(mk_table *table);

// ---- machines with their buffers
//
// Declare one, initialise it, give it events. All are bytes: their alignment is 1, and there is no padding. One that
// was never initialised is safe too, as any bytes are a control value: it reads and writes only itself, but may start
// in mid-packet, barred, or ignoring all up to a gap, and a reader with any parameters. A hub is as good as new at its
// first message gap. A byte goes in as uint8_t or unsigned char: a negative char is no event, and its byte would be
// lost.
//
// The functions have the names that the crate's types have in Rust: mk_hub_event is Hub::event.

// The hub: 8,742 bytes.
typedef struct {
    uint8_t control[MK_HUB_CONTROL_SIZE];
    uint8_t line[MK_LINE_SIZE];
    uint8_t gather[MK_MESSAGE_SIZE];
    uint8_t answer[MK_HUB_ANSWER_SIZE]; // to be sent: so many bytes as told
    uint8_t message[MK_MESSAGE_SIZE];   // the last message that was whole; stays until the next one is
} mk_hub;
MK_ASSERT(sizeof(mk_hub) == 8742 && MK_ALIGNMENT(mk_hub) == 1, "mk_hub");

typedef struct {
    uint32_t number; // MK_ADDED, MK_REPEATED, MK_MESSAGE, MK_NOTHING or a refusal
    size_t answer;   // so many bytes of hub.answer are to be sent
    uint8_t code;    // MK_MESSAGE: its code type
    size_t count;    // MK_MESSAGE: so many bytes of hub.message
} mk_hub_told;
MK_ASSERT(sizeof(mk_hub_told) == 32, "mk_hub_told");

static inline void mk_hub_init(mk_hub *hub)
{
    mk_hub_on(hub->control, sizeof hub->control);
}

static inline mk_hub_told mk_hub_event(mk_hub *hub, uint32_t event)
{
    mk_hub_told told = {MK_NOTHING, 0, 0, 0};
    if (mk_go_on(hub->control, hub->line, event))
        return told;
    size_t values[MK_HUB_VALUES];
    told.number = mk_hub_hear(hub->control, sizeof hub->control, hub->line, hub->gather, hub->answer,
        sizeof hub->answer, hub->message, sizeof hub->message, event, values);
    told.answer = values[MK_HUB_VALUE_ANSWER];
    told.code = (uint8_t)values[MK_HUB_VALUE_CODE];
    told.count = values[MK_HUB_VALUE_COUNT];
    return told;
}

typedef struct {
    uint32_t number; // MK_MESSAGE, MK_LENGTH, MK_CHECKSUM or MK_NOTHING
    size_t answer;   // so many bytes of hub.answer are to be sent
    uint8_t code;    // MK_MESSAGE: its code type
    size_t count;    // MK_MESSAGE: so many bytes of hub.message
    size_t taken;    // so many bytes were taken; give those behind them in a next call
} mk_hub_block_told;
MK_ASSERT(sizeof(mk_hub_block_told) == 40, "mk_hub_block_told");

// A block of bytes with no gap among them, as a serial port or DMA hands it over. hub.answer has room for one answer,
// so it leaves behind each: send it, then give what was not taken. It takes one byte at least where there is one, and
// no more than MK_BLOCK_SIZE at once, so nothing is refused and a loop over any buffer ends:
//
//     for (size_t at = 0; at < size;) {
//         mk_hub_block_told told = mk_hub_block(&hub, bytes + at, size - at);
//         at += told.taken;
//         if (told.answer > 0) uart_send(hub.answer, told.answer);
//         if (told.number == MK_MESSAGE) file_scores(told.code, hub.message, told.count);
//     }
//
// Who wants several answers in one go lends mk_hub_hear_block an answer room of as many times MK_HUB_ANSWER_SIZE.
static inline mk_hub_block_told mk_hub_block(mk_hub *hub, const uint8_t *bytes, size_t size)
{
    const size_t most = MK_BLOCK_SIZE;
    size_t values[MK_BLOCK_VALUES];
    mk_hub_block_told told;
    told.number = mk_hub_hear_block(hub->control, sizeof hub->control, hub->line, hub->gather, hub->answer,
        sizeof hub->answer, hub->message, sizeof hub->message, bytes, size < most ? size : most, values);
    told.answer = values[MK_BLOCK_VALUE_ANSWER];
    told.code = (uint8_t)values[MK_BLOCK_VALUE_CODE];
    told.count = values[MK_BLOCK_VALUE_COUNT];
    told.taken = values[MK_BLOCK_VALUE_TAKEN];
    return told;
}

// A framer alone, for those who want the packets themselves: 266 bytes.
typedef struct {
    uint8_t control[MK_FRAMER_CONTROL_SIZE];
    uint8_t line[MK_PACKET_SIZE]; // MK_PACKET: the packet, its data from the fifth byte on
} mk_framer;
MK_ASSERT(sizeof(mk_framer) == 266 && MK_ALIGNMENT(mk_framer) == 1, "mk_framer");

typedef struct {
    size_t length; // of the packet without its checksum, so of the data and 4 more
    uint8_t opcode;
    uint8_t source;
    uint8_t status;
} mk_head;
MK_ASSERT(sizeof(mk_head) == 16, "mk_head");

typedef struct {
    uint32_t number; // MK_PACKET, MK_NOTHING, or a refusal from MK_LENGTH to MK_CUT
    mk_head head;    // MK_PACKET: of the packet in framer.line
} mk_found;
MK_ASSERT(sizeof(mk_found) == 24, "mk_found");

static inline void mk_framer_init(mk_framer *framer)
{
    mk_framer_idle(framer->control, sizeof framer->control);
}

static inline mk_found mk_framer_event(mk_framer *framer, uint32_t event)
{
    size_t head[MK_HEAD_VALUES];
    mk_found told;
    told.number =
        mk_framer_hear(framer->control, sizeof framer->control, framer->line, sizeof framer->line, event, head);
    told.head.length = head[MK_HEAD_LENGTH];
    told.head.opcode = (uint8_t)head[MK_HEAD_OPCODE];
    told.head.source = (uint8_t)head[MK_HEAD_SOURCE];
    told.head.status = (uint8_t)head[MK_HEAD_STATUS];
    return told;
}

// A sender alone: 4,397 bytes. Whoever owns the line hears ACK and NAK (mk_sender_heed) and keeps the time.
typedef struct {
    uint8_t control[MK_SENDER_CONTROL_SIZE];
    uint8_t message[MK_MESSAGE_SIZE]; // the sender's own, also with nothing out
    uint8_t copy[MK_PACKET_SIZE];     // MK_COPY: the packet to be sent
} mk_sender;
MK_ASSERT(sizeof(mk_sender) == 4397 && MK_ALIGNMENT(mk_sender) == 1, "mk_sender");

// What a call brought a sender, alone or in a reader.
typedef struct {
    uint32_t number; // MK_COPY, MK_DELIVERED, MK_FAILED, MK_NOTHING or MK_START
    bool gap;        // MK_COPY of a start: a message gap is due before it
    size_t value;    // MK_COPY: so many bytes are to be sent; MK_DELIVERED, MK_FAILED: the message's marked copies
} mk_outcome;
MK_ASSERT(sizeof(mk_outcome) == 16, "mk_outcome");

static inline void mk_sender_init(mk_sender *sender)
{
    mk_sender_idle(sender->control, sizeof sender->control, false);
}

// Starts a message. Where it tells a gap, its copy waits until you have sent nothing for a message gap.
static inline mk_outcome mk_sender_send(mk_sender *sender, uint8_t code, const uint8_t *bytes, size_t count)
{
    size_t values[MK_START_VALUES];
    mk_outcome outcome;
    outcome.number = mk_sender_start(sender->control, sizeof sender->control, sender->message, sender->copy,
        sizeof sender->copy, code, bytes, count, values);
    outcome.gap = values[MK_START_VALUE_GAP] == 1;
    outcome.value = values[MK_START_VALUE_SIZE];
    return outcome;
}

// MK_HEARD_ACK, a NAK's cause or MK_HEARD_TIME_OUT.
static inline mk_outcome mk_sender_heard(mk_sender *sender, uint32_t heard)
{
    mk_outcome outcome;
    outcome.gap = false;
    outcome.number = mk_sender_hear(sender->control, sizeof sender->control, sender->message, sender->copy,
        sizeof sender->copy, heard, &outcome.value);
    return outcome;
}

// Whether a message is out.
static inline bool mk_sender_out(const mk_sender *sender)
{
    return mk_sender_waits(sender->control, sizeof sender->control) == MK_OUT;
}

// The reader's whole end: framer, commands with the parameters, sender. 5,018 bytes. mk_reader_save, mk_reader_load,
// mk_reader_locked, mk_reader_table and mk_reader_put_table take its control value as it stands here.
typedef struct {
    uint8_t control[MK_READER_CONTROL_SIZE];
    uint8_t line[MK_LINE_SIZE];
    uint8_t answers[MK_READER_ANSWER_SIZE];
    uint8_t message[MK_MESSAGE_SIZE];      // the reader's own, also with nothing out
    uint8_t answer[MK_READER_ANSWER_SIZE]; // to be sent: so many bytes as told
    uint8_t copy[MK_PACKET_SIZE];          // MK_COPY: the packet to be sent
} mk_reader;
MK_ASSERT(sizeof(mk_reader) == 5018 && MK_ALIGNMENT(mk_reader) == 1, "mk_reader");

// A sound to be made; with a count of 0 there is none.
typedef struct {
    uint8_t duration; // MK_DURATION_..
    uint8_t pitch;    // MK_PITCH_..
    uint8_t count;    // how many beeps
} mk_beep;
MK_ASSERT(sizeof(mk_beep) == 3, "mk_beep");

typedef struct {
    uint32_t number; // MK_ACTED, MK_REPEATED, MK_COPY, MK_DELIVERED, MK_FAILED, MK_NOTHING or a refusal
    size_t answer;   // so many bytes of reader.answer are to be sent
    mk_beep beep;    // MK_ACTED: the sound to be made
    bool permanent;  // MK_ACTED: a permanent value changed, so that it is time for mk_reader_save
    size_t value;    // MK_COPY: so many bytes of reader.copy are to be sent
                     // MK_DELIVERED, MK_FAILED: the message's marked copies
} mk_reader_told;
MK_ASSERT(sizeof(mk_reader_told) == 32, "mk_reader_told");

// What the commands have switched on.
typedef struct {
    bool scanning;
    bool session;
    bool aim;
    bool led;
} mk_switches;
MK_ASSERT(sizeof(mk_switches) == 4, "mk_switches");

// The house defaults, nothing locked, nothing out. A message gap is due before the first message, though its start
// tells none.
static inline void mk_reader_init(mk_reader *reader)
{
    mk_reader_on(reader->control, sizeof reader->control);
}

// Power-up: the permanent values of the parameters come back, locks stay, all else is as new. A message gap is due
// before the first message after it, though its start tells none.
static inline void mk_reader_restart(mk_reader *reader)
{
    mk_reader_power_up(reader->control, sizeof reader->control);
}

static inline mk_reader_told mk_reader_event(mk_reader *reader, uint32_t event)
{
    mk_reader_told told = {MK_NOTHING, 0, {0, 0, 0}, false, 0};
    if (mk_go_on(reader->control, reader->line, event))
        return told;
    size_t values[MK_READER_VALUES];
    told.number = mk_reader_hear(reader->control, sizeof reader->control, reader->line, reader->answers,
        reader->message, reader->answer, sizeof reader->answer, reader->copy, sizeof reader->copy, event, values);
    told.answer = values[MK_READER_VALUE_ANSWER];
    told.beep.duration = (uint8_t)values[MK_READER_VALUE_DURATION];
    told.beep.pitch = (uint8_t)values[MK_READER_VALUE_PITCH];
    told.beep.count = (uint8_t)values[MK_READER_VALUE_COUNT];
    told.permanent = values[MK_READER_VALUE_PERMANENT] == 1;
    told.value = values[MK_READER_VALUE_SENT];
    return told;
}

// Starts a message. Where it tells a gap, its copy waits until you have sent nothing for a message gap.
static inline mk_outcome mk_reader_send(mk_reader *reader, uint8_t code, const uint8_t *bytes, size_t count)
{
    size_t values[MK_START_VALUES];
    mk_outcome outcome;
    outcome.number = mk_reader_start(reader->control, sizeof reader->control, reader->message, reader->copy,
        sizeof reader->copy, code, bytes, count, values);
    outcome.gap = values[MK_START_VALUE_GAP] == 1;
    outcome.value = values[MK_START_VALUE_SIZE];
    return outcome;
}

// No answer to the last copy came within the response time-out (parameter 9Bh): it is to be sent again, marked, or
// the message has failed.
static inline mk_outcome mk_reader_expire(mk_reader *reader)
{
    mk_outcome outcome;
    outcome.gap = false;
    outcome.number = mk_reader_time_out(reader->control, sizeof reader->control, reader->message, reader->copy,
        sizeof reader->copy, &outcome.value);
    return outcome;
}

// The present value of a parameter, 0 where there is no such parameter.
static inline uint8_t mk_reader_parameter(const mk_reader *reader, uint8_t number)
{
    size_t value;
    mk_reader_value(reader->control, sizeof reader->control, number, &value);
    return (uint8_t)value;
}

static inline mk_switches mk_reader_switched(const mk_reader *reader)
{
    size_t values[MK_SWITCH_VALUES];
    mk_switches on;
    mk_reader_switches(reader->control, sizeof reader->control, values);
    on.scanning = values[MK_SWITCH_SCANNING] == 1;
    on.session = values[MK_SWITCH_SESSION] == 1;
    on.aim = values[MK_SWITCH_AIM] == 1;
    on.led = values[MK_SWITCH_LED] == 1;
    return on;
}

// The house defaults, present and permanent, nothing locked. A table is altered by mk_table_set, mk_table_set_defaults and
// mk_table_power_up as it stands:
//
//     static const uint8_t pairs[] = {MK_PARAMETER_BAUD, MK_BAUD_19200, MK_PARAMETER_PARITY, MK_PARITY_EVEN};
//     mk_table_init(&table);
//     if (mk_table_set(&table, pairs, sizeof pairs, true) == MK_NOTHING)
//         set_port(table.present[MK_PLACE_BAUD], table.present[MK_PLACE_PARITY]);
//     table.locked[MK_PLACE_BAUD] = 1; // from here on no list and no defaults change it
static inline void mk_table_init(mk_table *table)
{
    const mk_table zeros = {{0}, {0}, {0}};
    *table = zeros;
    mk_table_set_defaults(table);
}

#ifdef __cplusplus
}
#endif
#undef MK_ASSERT
#undef MK_ALIGNMENT

#endif
