// The peer: packet, hub and reader of docs/PROTOCOL.md (§n below is a section there), written by hand in C as firmware
// is. The library is timed beside it (speed/run). Nothing of it is proved and nothing rests on it; it is compared with
// the second program, event by event (speed/src/same.rs).
//
// The shape is that of bindings/c/motikhund.h: an event goes in as a number, what it brought comes back in a small
// struct, and what is to be sent or filed stands in a buffer of the machine. All buffers are the machine's own, so no
// event is ever refused for want of room. Packets that are built, saved sets and the answers of a block go into a room
// that is lent.
#ifndef PEER_H
#define PEER_H

#include <stdbool.h>
#include <stddef.h>
#include <stdint.h>

enum {
    PEER_PACKET_SIZE = 257,
    PEER_LINE_SIZE = 2 * PEER_PACKET_SIZE,
    PEER_DATA_SIZE = 251,
    PEER_MESSAGE_SIZE = 4096,
    PEER_BLOCK_SIZE = 4096,
    PEER_HUB_ANSWER_SIZE = 7,
    PEER_READER_ANSWER_SIZE = 25,
    PEER_PARAMETERS = 9,
    PEER_SET_SIZE = 30
};

// Events: 0 to 255 are a byte. Any number above these does nothing.
enum {
    PEER_CHARACTER_GAP = 256,
    PEER_MESSAGE_GAP = 257
};

// What a sender hears: 0 to 255 are a NAK with that cause.
enum {
    PEER_HEARD_ACK = 256,
    PEER_HEARD_TIME_OUT = 257
};

// What is told: the library's numbers.
enum {
    PEER_NOTHING = 0,
    PEER_LENGTH = 1,
    PEER_CHECKSUM = 2,
    PEER_CUT = 3,
    PEER_SOURCE = 4,
    PEER_STATUS = 5,
    PEER_OPCODE = 6,
    PEER_DATA = 7,
    PEER_BEEP = 8,
    PEER_SETTING = 9,
    PEER_BARRED = 10,
    PEER_START = 11,
    PEER_FORM = 12,
    PEER_ROOM = 13,
    PEER_LONG = 15,
    PEER_PACKET = 100,
    PEER_WRITTEN = 101,
    PEER_ADDED = 110,
    PEER_REPEATED = 111,
    PEER_MESSAGE = 112,
    PEER_COPY = 120,
    PEER_DELIVERED = 121,
    PEER_FAILED = 122,
    PEER_ACTED = 130
};

// What is told fits into 8 bytes, so that it comes back in a register.

// ---- the packet (§2 to §4)

typedef struct {
    uint32_t number; // PEER_PACKET, or PEER_LENGTH, PEER_CHECKSUM, PEER_CUT
    uint8_t length;  // PEER_PACKET: the packet's head
    uint8_t opcode;
    uint8_t source;
    uint8_t status;
} peer_checked;

// Judges the front of some bytes.
peer_checked peer_check(const uint8_t *bytes, size_t count);

typedef struct {
    uint8_t number; // PEER_WRITTEN, or PEER_ROOM, PEER_SOURCE, PEER_STATUS, PEER_DATA
    uint16_t size;  // PEER_WRITTEN: of the packet
} peer_built;

// Writes a packet at the front of the room.
peer_built peer_build(uint8_t *room, size_t room_size, uint8_t opcode, uint8_t source, uint8_t status,
    const uint8_t *data, size_t count);

// ---- the framer inside hub and reader (§5)

typedef struct {
    uint32_t at;    // where in the line the next byte goes
    uint32_t last;  // where the last byte of the packet begun goes; 0 where none is begun
    uint32_t sum;   // of its bytes so far
    uint32_t start; // where it starts: the line has two halves, and the other one keeps the last accepted packet
    bool deaf;      // no byte is heard until a gap
    bool accepted;  // there is a last accepted packet
    uint8_t line[PEER_LINE_SIZE];
} peer_framer;

// ---- the hub (§9)

typedef struct {
    peer_framer framer;
    bool barred;
    bool open;      // a piece was gathered
    uint8_t code;   // of the message that is open
    uint16_t count; // bytes gathered; 0 where none is open
    uint8_t gather[PEER_MESSAGE_SIZE];
    uint8_t answer[PEER_HUB_ANSWER_SIZE]; // to be sent
    uint8_t message[PEER_MESSAGE_SIZE];   // handed out
} peer_hub;

typedef struct {
    uint32_t number; // PEER_ADDED, PEER_REPEATED, PEER_MESSAGE, PEER_NOTHING or a refusal
    uint8_t answer;  // so many bytes of hub.answer are to be sent
    uint8_t code;    // PEER_MESSAGE: its code type
    uint16_t count;  // PEER_MESSAGE: so many bytes of hub.message
} peer_hub_told;

void peer_hub_init(peer_hub *hub);
peer_hub_told peer_hub_event(peer_hub *hub, uint32_t event);

typedef struct {
    uint8_t number;   // PEER_MESSAGE, PEER_LENGTH, PEER_CHECKSUM, PEER_NOTHING; PEER_ROOM and PEER_LONG took nothing
    uint8_t code;     // PEER_MESSAGE: its code type
    uint16_t answers; // so many bytes of the room are to be sent
    uint16_t count;   // PEER_MESSAGE: so many bytes of hub.message
    uint16_t taken;   // so many bytes of the block
} peer_block_told;

// Up to PEER_BLOCK_SIZE bytes with no gap among them (4/14), each of which does what it would do as an event. The
// answers stand one behind the other in the room, which has PEER_HUB_ANSWER_SIZE at least. It leaves at a message, and
// where the rest of the room might be too small for an answer: what is not taken then is to be given again.
peer_block_told peer_hub_block(peer_hub *hub, const uint8_t *bytes, size_t size, uint8_t *answers, size_t room);

// ---- the sender (§10)

typedef struct {
    bool out;        // a message is out
    uint8_t before;  // how the message before ended: PEER_DELIVERED, PEER_FAILED; PEER_NOTHING where there was none
    uint8_t code;    // of the message
    uint8_t resends; // marked copies of the present packet
    uint8_t marked;  // marked copies of the whole message
    uint8_t piece;   // so many bytes of the message are the present piece
    uint16_t size;   // of the message
    uint16_t place;  // where the present piece starts in it
    uint8_t message[PEER_MESSAGE_SIZE];
    uint8_t copy[PEER_PACKET_SIZE]; // to be sent
} peer_sender;

typedef struct {
    uint8_t number; // PEER_COPY, PEER_DELIVERED, PEER_FAILED, PEER_NOTHING or PEER_START
    bool gap;       // PEER_COPY: it is a message's first, and a message gap is due before it
    uint16_t value; // PEER_COPY: so many bytes are to be sent; PEER_DELIVERED, PEER_FAILED: marked copies
} peer_sent;

void peer_sender_init(peer_sender *sender);
peer_sent peer_sender_send(peer_sender *sender, uint8_t code, const uint8_t *bytes, size_t count);
peer_sent peer_sender_heard(peer_sender *sender, uint32_t heard);

// ---- the parameter table (§12)

// The reader has one, and a board may keep one itself (5/14), which these calls alter where it stands. Any bytes are a
// table; the order is that of the parameters' numbers.
typedef struct {
    uint8_t present[PEER_PARAMETERS];
    uint8_t permanent[PEER_PARAMETERS];
    uint8_t locked[PEER_PARAMETERS]; // 1 where the parameter is locked, and no other byte is a lock
} peer_table;

// A list of pairs, number and value, all or nothing: PEER_NOTHING; PEER_DATA where it ends with a number; PEER_SETTING
// for a pair that is not allowed or names a locked parameter.
uint32_t peer_table_set(peer_table *table, const uint8_t *pairs, size_t count, bool permanently);

// The house defaults, for all that are not locked.
void peer_table_defaults(peer_table *table);

// The permanent values become the present ones.
void peer_table_power_up(peer_table *table);

// ---- the reader's whole end (§11 to §13)

typedef struct {
    bool scanning;
    bool session;
    bool aim;
    bool led;
} peer_switches;

typedef struct {
    peer_framer framer;
    peer_table table;
    peer_switches switches;
    uint8_t kept_size; // of the answer to the last accepted packet
    uint8_t kept[PEER_READER_ANSWER_SIZE];
    uint8_t answer[PEER_READER_ANSWER_SIZE]; // to be sent
    peer_sender sender;
} peer_reader;

typedef struct {
    uint8_t number;   // PEER_ACTED, PEER_REPEATED, PEER_NOTHING, a refusal, or what the sender made of an ACK or NAK
    uint8_t answer;   // so many bytes of reader.answer are to be sent
    uint8_t duration; // PEER_ACTED: of the beep
    uint8_t pitch;
    uint8_t count;    // how many beeps; 0: none
    bool changed;     // PEER_ACTED: a permanent value is another one now
    uint16_t value;   // as in peer_sent
} peer_reader_told;

void peer_reader_init(peer_reader *reader);
void peer_reader_restart(peer_reader *reader);
peer_reader_told peer_reader_event(peer_reader *reader, uint32_t event);
peer_sent peer_reader_send(peer_reader *reader, uint8_t code, const uint8_t *bytes, size_t count);
peer_sent peer_reader_expire(peer_reader *reader);

// Writes the permanent values and the locks in the form of a saved set (2/14) at the front of the room: PEER_WRITTEN
// with its size, or PEER_ROOM for a room under PEER_SET_SIZE.
peer_built peer_reader_save(const peer_reader *reader, uint8_t *room, size_t room_size);

// Takes a saved set: PEER_NOTHING, or PEER_FORM, and nothing has changed.
uint32_t peer_reader_load(peer_reader *reader, const uint8_t *form, size_t count);

// Of the structs, for those who declare them in another language.
extern const size_t peer_hub_size, peer_sender_size, peer_table_size, peer_reader_size;

#endif
