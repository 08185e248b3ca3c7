//! The numbers of the line and of the library, under the names that they have in C (`bindings/c/motikhund.h`) without
//! `MK_`. The refusals are the enum [`Refusal`](crate::Refusal).

// ---- sizes in bytes: a call that is lent less is refused with `Refusal::Room`

/// A framer's control value.
pub const FRAMER_CONTROL_SIZE: usize = 9;
/// A hub's control value.
pub const HUB_CONTROL_SIZE: usize = 29;
/// A sender's control value.
pub const SENDER_CONTROL_SIZE: usize = 44;
/// A reader's control value.
pub const READER_CONTROL_SIZE: usize = 101;
/// The front of a hub's or a reader's control value, for [`mk_go_on`](crate::raw::mk_go_on).
pub const GOING_SIZE: usize = 10;
/// The longest packet with its checksum: building, a framer's line, a copy.
pub const PACKET_SIZE: usize = 257;
/// The line of hub and reader, two packets: one half receives, the last accepted packet stays in the other.
pub const LINE_SIZE: usize = 514;
/// The longest message, its code type not counted.
pub const MESSAGE_SIZE: usize = 4096;
/// The longest ACK or NAK.
pub const ANSWER_SIZE: usize = 7;
/// A hub's answer room.
pub const HUB_ANSWER_SIZE: usize = 7;
/// A reader's longest answer: a PARAM_SEND with all nine parameters.
pub const READER_ANSWER_SIZE: usize = 25;
/// The longest form of a saved set: all nine parameters are locked.
pub const SET_SIZE: usize = 30;
/// The most data in a packet.
pub const DATA_SIZE: usize = 251;
/// The most bytes in a block; more of them are refused with `Refusal::Long`.
pub const BLOCK_SIZE: usize = 4096;

// ---- what goes in, as `Event`, `Heard` and `Reply` have it by name

/// Event: a silence that ends a packet; 0 to 255 are the byte that came.
pub const CHARACTER_GAP: u32 = 256;
/// Event: a longer silence; any number above is no event, does nothing and tells [`NOTHING`].
pub const MESSAGE_GAP: u32 = 257;
/// Reply: an ACK; 0 to 255 are a NAK with that cause; any number above writes nothing.
pub const REPLY_ACK: u32 = 256;
/// Heard: an ACK came; 0 to 255 are a NAK with that cause.
pub const HEARD_ACK: u32 = 256;
/// Heard: no answer came in time.
pub const HEARD_TIME_OUT: u32 = 257;
/// Heard: nothing that a sender heeds; any number above means it too.
pub const HEARD_NOTHING: u32 = 258;

// ---- what a call tells that is no refusal

/// Nothing to tell.
pub const NOTHING: u32 = 0;
/// A packet was found.
pub const PACKET: u32 = 100;
/// A packet or a set was written.
pub const WRITTEN: u32 = 101;
/// Hub: a piece was added to the message.
pub const ADDED: u32 = 110;
/// A resend of what was accepted already: answered again, and nothing else done.
pub const REPEATED: u32 = 111;
/// Hub: a message is whole.
pub const MESSAGE: u32 = 112;
/// Sender: a packet stands in the copy room and is to be sent.
pub const COPY: u32 = 120;
/// Sender: the message is at the hub.
pub const DELIVERED: u32 = 121;
/// Sender: the message is given up.
pub const FAILED: u32 = 122;
/// Sender: a message is out.
pub const OUT: u32 = 123;
/// Reader: a command was acted on.
pub const ACTED: u32 = 130;

// ---- the packet

/// Cause of a NAK: send it again.
pub const CAUSE_RESEND: u8 = 1;
/// Cause of a NAK: makes no sense here.
pub const CAUSE_CONTEXT: u8 = 2;
/// Cause of a NAK: understood, and not done.
pub const CAUSE_DENIED: u8 = 6;

/// Source: the reader.
pub const SOURCE_READER: u8 = 0;
/// Source: the host, so also the hub.
pub const SOURCE_HOST: u8 = 4;

/// Status bit 0: the resend mark.
pub const STATUS_RESEND: u8 = 1;
/// Status bit 1, DECODE_DATA only: more pieces follow.
pub const STATUS_MORE: u8 = 2;
/// Status bit 3, of a PARAM_SEND: the values are to outlast power-up.
pub const STATUS_PERMANENT: u8 = 8;

/// Opcode AIM_OFF: no data.
pub const OPCODE_AIM_OFF: u8 = 0xC4;
/// Opcode AIM_ON: no data.
pub const OPCODE_AIM_ON: u8 = 0xC5;
/// Opcode PARAM_SEND: a beep code or FFh for none, then pairs of parameter and value.
pub const OPCODE_PARAM_SEND: u8 = 0xC6;
/// Opcode PARAM_REQUEST: parameters, or FEh for all; answered by a PARAM_SEND.
pub const OPCODE_PARAM_REQUEST: u8 = 0xC7;
/// Opcode PARAM_DEFAULTS: no data.
pub const OPCODE_PARAM_DEFAULTS: u8 = 0xC8;
/// Opcode CMD_ACK: no data.
pub const OPCODE_CMD_ACK: u8 = 0xD0;
/// Opcode CMD_NAK: the cause.
pub const OPCODE_CMD_NAK: u8 = 0xD1;
/// Opcode START_SESSION: no data.
pub const OPCODE_START_SESSION: u8 = 0xE4;
/// Opcode STOP_SESSION: no data.
pub const OPCODE_STOP_SESSION: u8 = 0xE5;
/// Opcode BEEP: a beep code.
pub const OPCODE_BEEP: u8 = 0xE6;
/// Opcode LED_ON: which LEDs; only bit 0 is looked at.
pub const OPCODE_LED_ON: u8 = 0xE7;
/// Opcode LED_OFF: the same.
pub const OPCODE_LED_OFF: u8 = 0xE8;
/// Opcode SCAN_ENABLE: no data.
pub const OPCODE_SCAN_ENABLE: u8 = 0xE9;
/// Opcode SCAN_DISABLE: no data.
pub const OPCODE_SCAN_DISABLE: u8 = 0xEA;
/// Opcode DECODE_DATA: a message's code type, then a piece of it.
pub const OPCODE_DECODE_DATA: u8 = 0xF3;

// ---- the reader's parameters (docs/PROTOCOL.md §12)

/// Parameter 80h, power mode: one of `POWER_..`; house default [`POWER_CONTINUOUS`].
pub const PARAMETER_POWER_MODE: u8 = 0x80;
/// Parameter 89h, same-symbol time: tenths of a second, 0 to 99; house default 10.
pub const PARAMETER_SAME_SYMBOL_TIME: u8 = 0x89;
/// Parameter 8Ah, trigger: one of `TRIGGER_..`; house default [`TRIGGER_LEVEL`].
pub const PARAMETER_TRIGGER: u8 = 0x8A;
/// Parameter 9Bh, response time-out: tenths of a second, 0 to 99; house default 20.
pub const PARAMETER_RESPONSE_TIME_OUT: u8 = 0x9B;
/// Parameter 9Ch, baud rate: one of `BAUD_..`; house default [`BAUD_9600`].
pub const PARAMETER_BAUD: u8 = 0x9C;
/// Parameter 9Eh, parity: one of `PARITY_..`; house default [`PARITY_NONE`].
pub const PARAMETER_PARITY: u8 = 0x9E;
/// Parameter 9Fh, whether the reader sends ACK and NAK: one of `ACK_NAK_..`; house default [`ACK_NAK_ON`].
pub const PARAMETER_ACK_NAK: u8 = 0x9F;
/// Parameter EDh, aim duration: tenths of a second, 0 (no aim pattern) to 99; house default 0.
pub const PARAMETER_AIM_DURATION: u8 = 0xED;
/// Parameter EEh, packeted data: one of `DATA_..`; house default [`DATA_PACKETED`].
pub const PARAMETER_PACKETED_DATA: u8 = 0xEE;

/// Power mode: always on.
pub const POWER_CONTINUOUS: u8 = 0;
/// Power mode: low power.
pub const POWER_LOW: u8 = 1;

/// Trigger: level.
pub const TRIGGER_LEVEL: u8 = 0;
/// Trigger: pulse.
pub const TRIGGER_PULSE: u8 = 2;
/// Trigger: continuous.
pub const TRIGGER_CONTINUOUS: u8 = 4;
/// Trigger: blinking.
pub const TRIGGER_BLINKING: u8 = 7;
/// Trigger: host.
pub const TRIGGER_HOST: u8 = 8;

/// 300 baud.
pub const BAUD_300: u8 = 1;
/// 600 baud.
pub const BAUD_600: u8 = 2;
/// 1,200 baud.
pub const BAUD_1200: u8 = 3;
/// 2,400 baud.
pub const BAUD_2400: u8 = 4;
/// 4,800 baud.
pub const BAUD_4800: u8 = 5;
/// 9,600 baud.
pub const BAUD_9600: u8 = 6;
/// 19,200 baud.
pub const BAUD_19200: u8 = 7;

/// Odd parity.
pub const PARITY_ODD: u8 = 0;
/// Even parity.
pub const PARITY_EVEN: u8 = 1;
/// Mark parity.
pub const PARITY_MARK: u8 = 2;
/// Space parity.
pub const PARITY_SPACE: u8 = 3;
/// No parity.
pub const PARITY_NONE: u8 = 4;

/// The reader sends no ACK and no NAK.
pub const ACK_NAK_OFF: u8 = 0;
/// The reader sends ACK and NAK.
pub const ACK_NAK_ON: u8 = 1;

/// Raw data. The library sends packets all the same; sending raw data is left to others.
pub const DATA_RAW: u8 = 0;
/// Packeted data.
pub const DATA_PACKETED: u8 = 1;

// ---- where each parameter stands in a table, and how many there are: in the order of their numbers

/// Place in a table: 80h, power mode.
pub const PLACE_POWER_MODE: usize = 0;
/// Place in a table: 89h, same-symbol time.
pub const PLACE_SAME_SYMBOL_TIME: usize = 1;
/// Place in a table: 8Ah, trigger.
pub const PLACE_TRIGGER: usize = 2;
/// Place in a table: 9Bh, response time-out.
pub const PLACE_RESPONSE_TIME_OUT: usize = 3;
/// Place in a table: 9Ch, baud rate.
pub const PLACE_BAUD: usize = 4;
/// Place in a table: 9Eh, parity.
pub const PLACE_PARITY: usize = 5;
/// Place in a table: 9Fh, whether the reader sends ACK and NAK.
pub const PLACE_ACK_NAK: usize = 6;
/// Place in a table: EDh, aim duration.
pub const PLACE_AIM_DURATION: usize = 7;
/// Place in a table: EEh, packeted data.
pub const PLACE_PACKETED_DATA: usize = 8;
/// The places of a table.
pub const PLACES: usize = 9;

// ---- a beep's duration and pitch (docs/PROTOCOL.md §13)

/// A short beep.
pub const DURATION_SHORT: u8 = 0;
/// A long beep.
pub const DURATION_LONG: u8 = 1;
/// A fast warble.
pub const DURATION_FAST_WARBLE: u8 = 2;
/// A slow warble.
pub const DURATION_SLOW_WARBLE: u8 = 3;
/// Mix 1.
pub const DURATION_MIX_1: u8 = 4;
/// Mix 2.
pub const DURATION_MIX_2: u8 = 5;
/// Mix 3.
pub const DURATION_MIX_3: u8 = 6;
/// Mix 4.
pub const DURATION_MIX_4: u8 = 7;
/// A high click.
pub const DURATION_HIGH_CLICK: u8 = 8;
/// A low click.
pub const DURATION_LOW_CLICK: u8 = 9;

/// High.
pub const PITCH_HIGH: u8 = 0;
/// Low.
pub const PITCH_LOW: u8 = 1;
/// High-low-high-low.
pub const PITCH_HIGH_LOW_HIGH_LOW: u8 = 2;
/// High-low.
pub const PITCH_HIGH_LOW: u8 = 3;
/// Low-high.
pub const PITCH_LOW_HIGH: u8 = 4;
/// High-low-high.
pub const PITCH_HIGH_LOW_HIGH: u8 = 5;
/// Low-high-low.
pub const PITCH_LOW_HIGH_LOW: u8 = 6;
/// High-high-low-low.
pub const PITCH_HIGH_HIGH_LOW_LOW: u8 = 7;
/// High-high-high.
pub const PITCH_HIGH_HIGH_HIGH: u8 = 8;
/// A low click.
pub const PITCH_LOW_CLICK: u8 = 9;

// ---- where each value stands that a raw call tells beside its number, and how many there are

/// Head: the packet's length without its checksum, so of the data and 4 more.
pub const HEAD_LENGTH: usize = 0;
/// Head: the opcode.
pub const HEAD_OPCODE: usize = 1;
/// Head: the source.
pub const HEAD_SOURCE: usize = 2;
/// Head: the status.
pub const HEAD_STATUS: usize = 3;
/// The values of a head.
pub const HEAD_VALUES: usize = 4;

/// Hub: so many bytes of the answer room are to be sent.
pub const HUB_VALUE_ANSWER: usize = 0;
/// Hub, of a message: its code type.
pub const HUB_VALUE_CODE: usize = 1;
/// Hub, of a message: so many bytes of the message room.
pub const HUB_VALUE_COUNT: usize = 2;
/// The values of a hub.
pub const HUB_VALUES: usize = 3;

/// Block: so many bytes of the answer room are to be sent, all answers one after the other.
pub const BLOCK_VALUE_ANSWER: usize = 0;
/// Block, of a message: its code type.
pub const BLOCK_VALUE_CODE: usize = 1;
/// Block, of a message: so many bytes of the message room.
pub const BLOCK_VALUE_COUNT: usize = 2;
/// Block: so many bytes were taken; those behind them are to be given again.
pub const BLOCK_VALUE_TAKEN: usize = 3;
/// The values of a block.
pub const BLOCK_VALUES: usize = 4;

/// Start, of a copy: so many bytes of the room are to be sent.
pub const START_VALUE_SIZE: usize = 0;
/// Start, of a copy: 1 where a message gap is due before it, else 0.
pub const START_VALUE_GAP: usize = 1;
/// The values of a start.
pub const START_VALUES: usize = 2;

/// Reader: so many bytes of the answer room are to be sent.
pub const READER_VALUE_ANSWER: usize = 0;
/// Reader, of a command: the beep's duration.
pub const READER_VALUE_DURATION: usize = 1;
/// Reader, of a command: the beep's pitch.
pub const READER_VALUE_PITCH: usize = 2;
/// Reader, of a command: how many beeps; 0: none.
pub const READER_VALUE_COUNT: usize = 3;
/// Reader, of a copy: so many bytes of the copy room are to be sent; of a message delivered or failed: its marked
/// copies.
pub const READER_VALUE_SENT: usize = 4;
/// Reader, of a command: 1 where a permanent value changed, so that it is time to save; else 0.
pub const READER_VALUE_PERMANENT: usize = 5;
/// The values of a reader.
pub const READER_VALUES: usize = 6;

/// Switches: scanning is enabled.
pub const SWITCH_SCANNING: usize = 0;
/// Switches: a session is on.
pub const SWITCH_SESSION: usize = 1;
/// Switches: the aim is on.
pub const SWITCH_AIM: usize = 2;
/// Switches: the LED is on.
pub const SWITCH_LED: usize = 3;
/// The values of the switches.
pub const SWITCH_VALUES: usize = 4;
