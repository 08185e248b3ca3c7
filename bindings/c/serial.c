// A hub or a reader on a serial device: the library over termios and poll, with the lines of `desk`. To build from the
// root of the repository:
//
//     gcc -std=c11 -O2 -I bindings/c bindings/c/serial.c target/staticlib/libmotikhund.a -o serial
//
// It is meant to be copied. What is easy to get wrong on a real line stands here in short functions:
//
// - A silence is what poll has seen. The clock is read before poll, and only a poll that found nothing counts: bytes
//   that waited while this program was not running are heard before any gap or time-out is told.
// - So no gap is among the bytes of one read, and the hub takes them as a block. It leaves that behind each answer,
//   which goes out before the rest is taken.
// - An answer goes out in time or not at all. The hub reckons from the last moment at which nothing had come, so that
//   it also knows that it is late where it was stopped.
// - A reader hears nothing while it sends, and what came in one lump with an ACK is no answer to the next copy.
// - A start says where a message gap is due. It is kept before the copy and counts from the last byte that was sent.
//   What comes meanwhile is dropped: an ACK would count for the copy that is not out, an answer would end the silence.
// - When the last byte of what was written is out is reckoned from the baud rate: write returns long before that, and a
//   wait for the driver (tcdrain) may return after the answer has come.
// - The answer is sent first; lines are written behind it, as a terminal or a pipe may hold them up. So is the saved
//   set, as flash is slow.
#define _POSIX_C_SOURCE 200809L
#define _DEFAULT_SOURCE // mark and space parity and rates above 38,400, where the system has them

#include <ctype.h>
#include <errno.h>
#include <fcntl.h>
#include <poll.h>
#include <signal.h>
#include <stdarg.h>
#include <stdio.h>
#include <stdlib.h>
#include <string.h>
#include <termios.h>
#include <time.h>
#include <unistd.h>

#include "motikhund.h"

#define COUNT(array) (sizeof(array) / sizeof *(array))

static const char usage[] = "usage: serial hub|reader [OPTION VALUE].. DEVICE [BAUD], or serial --help";

static const char help[] =
    "serial: a hub or a reader on a serial device, with the lines of desk\n"
    "\n"
    "    serial hub DEVICE [BAUD]       takes messages from a reader, until it is stopped\n"
    "    serial reader DEVICE [BAUD]    sends cards from standard input and does what the host commands;\n"
    "                                   ends with the input, when its last card is delivered or failed\n"
    "\n"
    "BAUD is 300, 600, 1200, 2400, 4800, 9600, 19200 or 38400, and 57600 or 115200 where the system has\n"
    "them; 9600 where none is given. 8 data bits, 1 stop bit, no flow control.\n"
    "\n"
    "    --parity P       odd, even, mark, space or none, as 9Eh has them (none)\n"
    "    --time-out N     9Bh, in tenths of a second, 0 to 99 (20): at the reader the first value, which\n"
    "                     its host may change; at the hub that of its reader\n"
    "    --gap MS         the character gap\n"
    "    --delay MS       the longest that either end may take to act on what came (500)\n"
    "    --set FILE       reader: where its saved set is kept. A set that is there at the start holds, and\n"
    "                     not BAUD and the options for 9Bh and 9Eh; it is written when a value is set for\n"
    "                     ever\n"
    "\n"
    "CARDS\n"
    "\n"
    "    S tt bb .. ;     a card: its code type and bytes, two hex digits each; \"text\" is its characters:\n"
    "                     S 1B \"SAMPLE 8\" ;\n"
    "    U                show the present values\n"
    "    P                power-up\n"
    "\n"
    "LINES (bytes and values in hex, numbers in decimal)\n"
    "\n"
    "    R n              refusal number n; the hub tells 1, 2 and 3, and only answers the others\n"
    "    A bb ..          an answer goes out\n"
    "    M tt bb ..       hub: a message is handed out: its code type, then its bytes\n"
    "    B d p c          reader: a beep: duration, pitch, number of beeps\n"
    "    G e s a l        reader: after a command: scanning enabled, session, aim, LED; each 0 or 1\n"
    "    I                reader: a message gap is due before the copy that follows, and is kept\n"
    "    C bb ..          reader: a copy of a packet goes out\n"
    "    D n              reader: the card is delivered; n is the number of marked copies\n"
    "    F n              reader: the card has failed; n as above\n"
    "    U vv ..          reader: the present values of parameters 80 89 8A 9B 9C 9E 9F ED EE (hex)\n"
    "    E                reader: the input is wrong; standard error says where, and the status is 1\n"
    "\n"
    "TIMES\n"
    "\n"
    "A program hears bytes in lumps: a USB adapter may keep them for 16 ms, a UART until 14 are there, a\n"
    "busy machine longer. So the character gap is 50 ms and the time of 16 bytes, and either end is silent\n"
    "for two of them after all that it sends. The time-out is 9Bh, but never less than an answer takes:\n"
    "delay, 7 bytes and two gaps. The message gap is longer than two lost copies with their time-outs take:\n"
    "6.7 s at 9600 baud with 9Bh at 20. The reader keeps it before its first card, before the first one\n"
    "behind P, and where a start tells it (I): behind a failed card, and before a card that is one packet\n"
    "and equals the packet before it. There it hears nothing until the copy is out. Give both ends the same\n"
    "BAUD and options. Before a host raises 9Bh, start the hub again with that --time-out.\n";

// ---- what was asked for

// All times are microseconds.
enum { MS = 1000, TENTH = 100 * MS, SECOND = 1000 * MS };

enum {
    GAP_FLOOR = 50 * MS, // lumps: 16 ms in a USB adapter, and what a busy machine adds
    GAP_BYTES = 16,      // and a UART that tells of its bytes only when so many are there
    TICK = 100 * MS,     // poll waits no longer: the more often nothing was there, the better is known when bytes came
    STUCK = 5 * SECOND   // a device that takes no byte for so long is an error
};

typedef struct {
    long baud;
    speed_t speed;
    uint8_t code; // the value of 9Ch, 0 where it has none
} rate;

static const rate rates[] = {
    {300, B300, MK_BAUD_300},
    {600, B600, MK_BAUD_600},
    {1200, B1200, MK_BAUD_1200},
    {2400, B2400, MK_BAUD_2400},
    {4800, B4800, MK_BAUD_4800},
    {9600, B9600, MK_BAUD_9600},
    {19200, B19200, MK_BAUD_19200},
    {38400, B38400, 0},
#ifdef B57600
    {57600, B57600, 0},
#endif
#ifdef B115200
    {115200, B115200, 0},
#endif
};

static const char *const parities[] = {"odd", "even", "mark", "space", "none"}; // by their values of 9Eh

static struct {
    const char *device;
    rate rate;
    uint8_t parity;   // a value of 9Eh
    uint8_t time_out; // of 9Bh: the reader's first one; at the hub that of its reader
    int64_t gap;      // 0: reckoned
    int64_t delay;
    const char *set;  // the file that stands for flash; NULL: nothing outlasts this run
} asked = {.rate = {9600, B9600, MK_BAUD_9600}, .parity = MK_PARITY_NONE, .time_out = 20, .delay = 500 * MS};

// ---- how long (docs/PROTOCOL.md §15)

static int64_t byte_time(void)
{
    int bits = asked.parity == MK_PARITY_NONE ? 10 : 11;
    return (int64_t)bits * SECOND / asked.rate.baud + 1;
}

static int64_t character_gap(void)
{
    return asked.gap > 0 ? asked.gap : GAP_FLOOR + GAP_BYTES * byte_time();
}

// Our own silence is longer than the one that the other end measures: of a lump that came to it late some is eaten.
static int64_t own_silence(int64_t gap)
{
    return gap + character_gap();
}

// From the last byte of a copy to the gap behind its answer. That a packet was cut is known only a gap later.
static int64_t answer_time(void)
{
    return character_gap() + asked.delay + MK_HUB_ANSWER_SIZE * byte_time() + character_gap();
}

static int64_t time_out(uint8_t tenths)
{
    int64_t time = (int64_t)tenths * TENTH;
    return time > answer_time() ? time : answer_time();
}

// Longer than any silence inside a message: an answer, and two copies that were lost.
static int64_t message_gap(uint8_t tenths)
{
    int64_t lost = time_out(tenths) + asked.delay + MK_PACKET_SIZE * byte_time();
    return answer_time() + asked.delay + 2 * lost + character_gap();
}

static int64_t now(void)
{
    struct timespec at;
    clock_gettime(CLOCK_MONOTONIC, &at);
    return (int64_t)at.tv_sec * SECOND + at.tv_nsec / 1000;
}

// ---- what is said, and the lines

static void say(const char *format, ...)
{
    va_list values;
    va_start(values, format);
    fputs("serial: ", stderr);
    vfprintf(stderr, format, values);
    fputc('\n', stderr);
    va_end(values);
}

#define FAIL(...) (say(__VA_ARGS__), exit(1))

// What is written stays in memory until it is flushed: nothing waits for it before an answer is sent. The longest is a
// message with three characters a byte.
static char unwritten[1 << 15];

static void put_bytes(const uint8_t *bytes, size_t count)
{
    for (size_t i = 0; i < count; i++)
        printf(" %02X", bytes[i]);
}

static void bytes_line(char letter, const uint8_t *bytes, size_t count)
{
    putchar(letter);
    put_bytes(bytes, count);
    putchar('\n');
}

static void refusal_line(uint32_t number)
{
    if (number >= MK_LENGTH && number <= MK_ROOM)
        printf("R %u\n", (unsigned)number);
}

static void flush_lines(void)
{
    if (fflush(stdout) == 0)
        return;
    if (errno != EPIPE) // nobody listens any more: nothing to say
        say("the output cannot be written: %s", strerror(errno));
    exit(1);
}

// ---- the device

static struct {
    int device;
    struct termios before; // its settings, put back at the end
    int64_t out;           // when the last byte that was sent is out
    int64_t heard;         // when bytes were read last
    int64_t empty;         // nothing was there to be read at this time
    int64_t came_after;    // the bytes that were read last came later than this
    bool character_gap;    // told, of the silence since then
    bool message_gap;
} line = {.device = -1};

static volatile sig_atomic_t stopped;

static void stop(int signal)
{
    (void)signal;
    stopped = 1;
}

static void catch_signals(void)
{
    struct sigaction action = {.sa_handler = stop}; // poll is not to go on behind it
    sigaction(SIGINT, &action, NULL);
    sigaction(SIGTERM, &action, NULL);
    sigaction(SIGHUP, &action, NULL);
    action.sa_handler = SIG_IGN;
    sigaction(SIGPIPE, &action, NULL);
}

static tcflag_t parity_flags(void)
{
    switch (asked.parity) {
    case MK_PARITY_ODD:
        return PARENB | PARODD;
    case MK_PARITY_EVEN:
        return PARENB;
#ifdef CMSPAR
    case MK_PARITY_MARK:
        return PARENB | PARODD | CMSPAR;
    case MK_PARITY_SPACE:
        return PARENB | CMSPAR;
#endif
    case MK_PARITY_NONE:
        return 0;
    default:
        FAIL("this system has no %s parity", parities[asked.parity]);
        return 0;
    }
}

// Raw, as asked for, and looked at again: tcsetattr is content where it could change anything at all. What came before
// is dropped with the change: a flush behind it would drop what came right. A byte with a wrong parity is read as 00, so
// that the checksum is wrong.
static void set_port(void)
{
    const tcflag_t form = CS8 | CREAD | CLOCAL | parity_flags();
    struct termios port = line.before, set;
    port.c_iflag = IGNBRK | (form & PARENB ? INPCK : 0);
    port.c_oflag = 0;
    port.c_lflag = 0;
    port.c_cflag = form;
    port.c_cc[VMIN] = 1; // else nothing to read would look like a device that is gone
    port.c_cc[VTIME] = 0;
    cfsetispeed(&port, asked.rate.speed);
    cfsetospeed(&port, asked.rate.speed);
    if (tcsetattr(line.device, TCSAFLUSH, &port) != 0 || tcgetattr(line.device, &set) != 0)
        FAIL("%s cannot be set: %s", asked.device, strerror(errno));
    if ((set.c_cflag & (form | CSIZE | CSTOPB | PARENB | PARODD)) != form || cfgetospeed(&set) != asked.rate.speed)
        FAIL("%s does not take %ld baud with %s parity", asked.device, asked.rate.baud, parities[asked.parity]);
}

static void put_back(void)
{
    tcsetattr(line.device, TCSANOW, &line.before);
    close(line.device);
}

static void open_device(void)
{
    line.device = open(asked.device, O_RDWR | O_NOCTTY | O_NONBLOCK);
    if (line.device < 0)
        FAIL("%s cannot be opened: %s", asked.device, strerror(errno));
    if (tcgetattr(line.device, &line.before) != 0)
        FAIL("%s is no serial line: %s", asked.device, strerror(errno));
    atexit(put_back);
    line.empty = now(); // what comes is not dropped from the change on, so it may be as old as that
    set_port();
    line.out = line.heard = now();
}

static size_t read_device(uint8_t *bytes, size_t room)
{
    int64_t asked_at = now();
    ssize_t count = read(line.device, bytes, room);
    if (count < 0 && (errno == EAGAIN || errno == EINTR))
        return 0;
    if (count <= 0)
        FAIL("%s is gone%s%s", asked.device, count < 0 ? ": " : "", count < 0 ? strerror(errno) : "");
    line.came_after = line.empty;
    if ((size_t)count < room) // else more may be there
        line.empty = asked_at;
    line.heard = now();
    line.character_gap = line.message_gap = false;
    return (size_t)count;
}

static int poll_time(int64_t time)
{
    int64_t tick = asked.delay / 4 < TICK ? asked.delay / 4 : TICK;
    if (time <= 0)
        return 0;
    return (int)(((time < tick ? time : tick) + MS - 1) / MS);
}

// What the device has, once there is something; none where nothing came until then or for a tick. Where `input` is not
// NULL, standard input is waited for too, and it says whether there is something to read.
static size_t hear(uint8_t *bytes, size_t room, int64_t until, bool *input)
{
    struct pollfd ready[] = {{line.device, POLLIN, 0}, {input == NULL ? -1 : STDIN_FILENO, POLLIN, 0}};
    int64_t asked_at = now();
    int wait = poll_time(until - asked_at);
    int found = poll(ready, COUNT(ready), wait);
    if (found < 0 && errno != EINTR)
        FAIL("poll: %s", strerror(errno));
    if (found < 0)
        return 0;
    if (input != NULL)
        *input = ready[1].revents != 0;
    if (ready[0].revents != 0)
        return read_device(bytes, room);
    line.empty = asked_at + (found == 0 ? (int64_t)wait * MS : 0);
    return 0;
}

// Whether the silence has become a gap that was not told yet.
static bool grown(int64_t gap, bool *told)
{
    if (*told || line.empty - line.heard < gap)
        return false;
    *told = true;
    return true;
}

static void wait_for_room(int64_t give_up)
{
    struct pollfd ready = {line.device, POLLOUT, 0};
    if (now() > give_up)
        FAIL("%s takes no more bytes", asked.device);
    poll(&ready, 1, poll_time(TICK));
}

static void write_device(const uint8_t *bytes, size_t count)
{
    int64_t give_up = now() + STUCK;
    while (count > 0) {
        int64_t began = now();
        ssize_t taken = write(line.device, bytes, count);
        if (taken < 0 && errno != EAGAIN && errno != EINTR)
            FAIL("%s is gone: %s", asked.device, strerror(errno));
        if (taken <= 0) {
            wait_for_room(give_up);
            continue;
        }
        line.out = (line.out > began ? line.out : began) + taken * byte_time();
        bytes += taken;
        count -= (size_t)taken;
    }
}

// ---- the hub

static mk_hub hub;

static void wait_until(int64_t time)
{
    for (int64_t left; (left = time - now()) > 0;)
        poll(NULL, 0, poll_time(left));
}

// Whether the answer was sent: a late one would be taken for the next packet's.
static bool hub_answers(size_t count)
{
    wait_until(line.out + own_silence(character_gap()));
    if (now() > line.came_after + character_gap() + asked.delay) {
        say("too late for an answer; the reader will send it again");
        return false;
    }
    write_device(hub.answer, count);
    return true;
}

static void message_line(uint8_t code, size_t count)
{
    putchar('M');
    put_bytes(&code, 1);
    put_bytes(hub.message, count);
    putchar('\n');
}

static void hub_tells(mk_hub_told told)
{
    refusal_line(told.number);
    if (told.number == MK_MESSAGE)
        message_line(told.code, told.count);
    if (told.answer > 0 && hub_answers(told.answer))
        bytes_line('A', hub.answer, told.answer);
    flush_lines();
}

// What one read gave: a call for each answer in it, and for what is left.
static void hub_takes(const uint8_t *bytes, size_t count)
{
    for (size_t at = 0; at < count;) {
        mk_hub_block_told told = mk_hub_block(&hub, bytes + at, count - at);
        at += told.taken;
        hub_tells((mk_hub_told){told.number, told.answer, told.code, told.count});
    }
}

static int64_t hub_waits_until(void)
{
    return line.heard + (line.character_gap ? message_gap(asked.time_out) : character_gap());
}

static void run_hub(void)
{
    uint8_t bytes[MK_PACKET_SIZE];
    mk_hub_init(&hub);
    while (!stopped) {
        int64_t until = line.message_gap ? now() + TICK : hub_waits_until();
        size_t count = hear(bytes, sizeof bytes, until, NULL);
        hub_takes(bytes, count);
        if (grown(character_gap(), &line.character_gap))
            hub_tells(mk_hub_event(&hub, MK_CHARACTER_GAP));
        if (grown(message_gap(asked.time_out), &line.message_gap))
            hub_tells(mk_hub_event(&hub, MK_MESSAGE_GAP));
    }
}

// ---- the reader

static mk_reader reader;

static struct {
    bool waits;      // a card is out
    bool powered_up; // and no card was sent since: a message gap is due that no start tells
    int64_t expires; // the time-out of the last copy
} sender = {.powered_up = true};

static struct {
    bool ready;
    uint8_t bytes[1 + MK_MESSAGE_SIZE + 1]; // code type and message, and one byte more, so that it is seen and refused
    size_t count;
} card;

static struct {
    uint8_t baud, parity; // values of 9Ch and 9Eh that the port was set for
} followed;

static uint8_t parameter(uint8_t number)
{
    return mk_reader_parameter(&reader, number);
}

// What comes until then is heard by nobody. What is read later may be an answer, so poll's time is rounded down and the
// last millisecond is spent asking.
static void drop_until(int64_t time)
{
    uint8_t dropped[MK_PACKET_SIZE];
    for (int64_t left; (left = time - now()) > 0;) {
        struct pollfd ready = {line.device, POLLIN, 0};
        if (poll(&ready, 1, (int)(left / MS)) > 0 && now() < time)
            read_device(dropped, sizeof dropped);
    }
}

// A packet that had begun before is cut, as its rest was dropped. Nothing is to be answered then: with a card out
// refusal 3 is not, and behind an answer nothing has begun.
static void reader_sends(const uint8_t *bytes, size_t count)
{
    drop_until(line.out + own_silence(character_gap()));
    write_device(bytes, count);
    drop_until(line.out);
    refusal_line(mk_reader_event(&reader, MK_CHARACTER_GAP).number);
}

static void reader_sent(mk_outcome sent)
{
    switch (sent.number) {
    case MK_COPY:
        bytes_line('C', reader.copy, sent.value);
        reader_sends(reader.copy, sent.value);
        sender.expires = line.out + time_out(parameter(MK_PARAMETER_RESPONSE_TIME_OUT));
        break;
    case MK_DELIVERED:
    case MK_FAILED:
        printf("%c %zu\n", sent.number == MK_DELIVERED ? 'D' : 'F', sent.value);
        sender.waits = false;
        break;
    default:
        break;
    }
}

// A command or a power-up that changed 9Ch or 9Eh changes the port, behind the answer. A BAUD for which 9Ch has no
// value stays until then.
static void follow_port(void)
{
    uint8_t baud = parameter(MK_PARAMETER_BAUD), parity = parameter(MK_PARAMETER_PARITY);
    if (baud == followed.baud && parity == followed.parity)
        return;
    for (size_t i = 0; i < COUNT(rates); i++) {
        if (baud != followed.baud && baud == rates[i].code)
            asked.rate = rates[i];
    }
    asked.parity = parity;
    followed.baud = baud;
    followed.parity = parity;
    set_port();
}

static void acted_lines(mk_beep beep)
{
    mk_switches on = mk_reader_switched(&reader);
    if (beep.count > 0)
        printf("B %d %d %d\n", beep.duration, beep.pitch, beep.count);
    printf("G %d %d %d %d\n", on.scanning, on.session, on.aim, on.led);
}

// A form has no checksum, so flash never holds half of an old one and half of a new one: the new one is written whole
// beside the old one and takes its place at once.
static void keep_set(void)
{
    uint8_t form[MK_SET_SIZE];
    char fresh[FILENAME_MAX];
    size_t size;
    mk_reader_save(reader.control, sizeof reader.control, form, sizeof form, &size);
    bool fits = (size_t)snprintf(fresh, sizeof fresh, "%s.new", asked.set) < sizeof fresh;
    FILE *file = fits ? fopen(fresh, "wb") : NULL;
    bool written = file != NULL && fwrite(form, 1, size, file) == size && fflush(file) == 0 && fsync(fileno(file)) == 0;
    if (file != NULL && fclose(file) != 0)
        written = false;
    if (!written || rename(fresh, asked.set) != 0)
        say("%s cannot be written, and keeps what it has: %s", asked.set, strerror(errno));
}

static void reader_takes(uint32_t event)
{
    mk_reader_told told = mk_reader_event(&reader, event);
    refusal_line(told.number);
    if (told.number == MK_ACTED)
        acted_lines(told.beep);
    if (told.answer > 0) {
        bytes_line('A', reader.answer, told.answer);
        reader_sends(reader.answer, told.answer);
    }
    if (told.permanent && asked.set != NULL)
        keep_set();
    reader_sent((mk_outcome){told.number, false, told.value});
    follow_port();
    flush_lines();
}

// A lump is left where something was sent: what came before a copy is no answer to it.
static void reader_hears(const uint8_t *bytes, size_t count)
{
    int64_t out = line.out;
    for (size_t i = 0; i < count && line.out == out; i++)
        reader_takes(bytes[i]);
}

static int64_t silent_for(int64_t gap)
{
    return line.out + own_silence(gap);
}

static int64_t reader_message_gap(void)
{
    return message_gap(parameter(MK_PARAMETER_RESPONSE_TIME_OUT));
}

// Behind power-up the message gap is kept before the start, so that commands are answered meanwhile.
static int64_t card_starts(void)
{
    return silent_for(sender.powered_up ? reader_message_gap() : character_gap());
}

// Not while the host is sending.
static bool card_may_start(void)
{
    return card.ready && line.character_gap;
}

// The message gap that a start told: nothing is sent, and what comes is dropped.
static void keep_message_gap(void)
{
    puts("I");
    flush_lines();
    for (int64_t until = silent_for(reader_message_gap()), left; !stopped && (left = until - now()) > 0;)
        drop_until(left < TICK ? until : now() + TICK);
}

static void start_card(void)
{
    mk_outcome sent = mk_reader_send(&reader, card.bytes[0], card.bytes + 1, card.count - 1);
    card.ready = false;
    refusal_line(sent.number);
    if (sent.number == MK_COPY) {
        sender.waits = true;
        sender.powered_up = false;
    }
    if (sent.gap)
        keep_message_gap();
    if (!stopped)
        reader_sent(sent);
    flush_lines();
}

// ---- the reader's input

static struct {
    uint8_t bytes[1 << 12]; // what was read and not yet taken
    size_t count, at;
    bool ended;
    size_t row, column;
    uint8_t digit; // the first of a byte, 0 where none waits for its second
    enum { OUTSIDE, INSIDE, QUOTED } place;
} text = {.row = 1};

static void wrong(const char *why)
{
    puts("E");
    flush_lines();
    FAIL("line %zu, column %zu: %s", text.row, text.column, why);
}

static void add_byte(uint8_t byte)
{
    if (card.count < sizeof card.bytes)
        card.bytes[card.count++] = byte;
}

static uint8_t digit_value(uint8_t digit)
{
    return (uint8_t)(isdigit(digit) ? digit - '0' : toupper(digit) - 'A' + 10);
}

static void take_digit(uint8_t digit)
{
    if (text.place == OUTSIDE)
        wrong("a byte outside of a card; a card is S, its code type and bytes, and ;");
    if (text.digit != 0)
        add_byte((uint8_t)(digit_value(text.digit) << 4 | digit_value(digit)));
    text.digit = text.digit == 0 ? digit : 0;
}

static void show_values(void)
{
    static const uint8_t numbers[] = {MK_PARAMETER_POWER_MODE, MK_PARAMETER_SAME_SYMBOL_TIME, MK_PARAMETER_TRIGGER,
        MK_PARAMETER_RESPONSE_TIME_OUT, MK_PARAMETER_BAUD, MK_PARAMETER_PARITY, MK_PARAMETER_ACK_NAK,
        MK_PARAMETER_AIM_DURATION, MK_PARAMETER_PACKETED_DATA};
    uint8_t values[COUNT(numbers)];
    for (size_t i = 0; i < COUNT(numbers); i++)
        values[i] = parameter(numbers[i]);
    bytes_line('U', values, COUNT(values));
}

static void power_up(void)
{
    mk_reader_restart(&reader);
    sender.powered_up = true;
    follow_port();
}

static void take_letter(uint8_t letter)
{
    if (letter == 'S') {
        text.place = INSIDE;
        card.count = 0;
    } else if (letter == 'U') {
        show_values();
    } else if (letter == 'P') {
        power_up();
    } else {
        wrong("no card, U or P begins so");
    }
}

static void take_sign(uint8_t sign)
{
    if (sign == ' ' || sign == '\n' || sign == '\r')
        return;
    if (text.place == OUTSIDE) {
        take_letter(sign);
        return;
    }
    if (sign != ';' && sign != '"')
        wrong("between S and ; only bytes and \"text\" stand");
    if (card.count == 0)
        wrong("a card begins with its code type, two hex digits");
    text.place = sign == '"' ? QUOTED : OUTSIDE;
    card.ready = sign == ';';
}

static void take_quoted(uint8_t character)
{
    if (character == '\n')
        wrong("a text ends in the line in which it began");
    if (character == '"')
        text.place = INSIDE;
    else
        add_byte(character);
}

static void take_character(uint8_t character)
{
    text.column++;
    if (text.place == QUOTED)
        take_quoted(character);
    else if (isxdigit(character))
        take_digit(character);
    else if (text.digit != 0)
        wrong("a lone digit before this: a byte is two hex digits together");
    else
        take_sign(character);
    if (character == '\n') {
        text.row++;
        text.column = 0;
    }
}

static void read_input(void)
{
    ssize_t count = read(STDIN_FILENO, text.bytes, sizeof text.bytes);
    if (count < 0 && (errno == EINTR || errno == EAGAIN))
        return;
    if (count < 0)
        FAIL("the input cannot be read: %s", strerror(errno));
    text.count = (size_t)count;
    text.at = 0;
    text.ended = count == 0;
    if (text.ended && text.digit != 0)
        wrong("the end of the input behind a lone digit: a byte is two hex digits together");
}

// Up to the next card.
static void take_input(void)
{
    while (!sender.waits && !card.ready && text.at < text.count)
        take_character(text.bytes[text.at++]);
    flush_lines();
}

// ---- the reader's loop

// What flash holds; no set (MK_FORM) changes nothing, so the first values stay. One byte more is read than a form can
// have, so that a longer file is refused.
static void take_set(void)
{
    uint8_t form[MK_SET_SIZE + 1];
    FILE *file = fopen(asked.set, "rb");
    if (file == NULL && errno == ENOENT) // blank
        return;
    if (file == NULL)
        FAIL("%s cannot be read: %s", asked.set, strerror(errno));
    size_t size = fread(form, 1, sizeof form, file);
    fclose(file);
    if (mk_reader_load(reader.control, sizeof reader.control, form, size) == MK_FORM)
        say("%s holds no set: refusal %d", asked.set, MK_FORM);
}

// The first values of 9Bh, 9Ch and 9Eh, set as its host would set them for ever; then it is as just switched on. A set
// that was kept holds instead of all nine.
static void init_reader(void)
{
    const uint8_t data[] = {0xFF, MK_PARAMETER_RESPONSE_TIME_OUT, asked.time_out, MK_PARAMETER_PARITY, asked.parity,
        MK_PARAMETER_BAUD, asked.rate.code};
    size_t count = asked.rate.code == 0 ? sizeof data - 2 : sizeof data;
    uint8_t packet[MK_PACKET_SIZE];
    size_t size;
    mk_reader_init(&reader);
    mk_build(packet, sizeof packet, MK_OPCODE_PARAM_SEND, MK_SOURCE_HOST, MK_STATUS_PERMANENT, data, count, &size);
    for (size_t i = 0; i < size; i++)
        mk_reader_event(&reader, packet[i]);
    mk_reader_restart(&reader);
    followed.baud = parameter(MK_PARAMETER_BAUD);
    followed.parity = parameter(MK_PARAMETER_PARITY);
    if (asked.set != NULL)
        take_set();
    follow_port();
}

static int64_t reader_waits_until(void)
{
    int64_t until = now() + TICK;
    if (!line.character_gap && line.heard + character_gap() < until)
        until = line.heard + character_gap();
    if (sender.waits && sender.expires < until)
        until = sender.expires;
    if (card_may_start() && card_starts() < until)
        until = card_starts();
    return until;
}

static void run_reader(void)
{
    uint8_t bytes[MK_PACKET_SIZE];
    init_reader();
    while (!stopped && (!text.ended || card.ready || sender.waits)) {
        bool wanted = !text.ended && !card.ready && !sender.waits && text.at == text.count, input = false;
        size_t count = hear(bytes, sizeof bytes, reader_waits_until(), wanted ? &input : NULL);
        reader_hears(bytes, count);
        if (grown(character_gap(), &line.character_gap))
            reader_takes(MK_CHARACTER_GAP);
        if (sender.waits && line.empty >= sender.expires) {
            reader_sent(mk_reader_expire(&reader));
            flush_lines();
        }
        if (input)
            read_input();
        take_input();
        if (card_may_start() && now() >= card_starts())
            start_card();
    }
    if (card.ready || sender.waits)
        FAIL("stopped with a card that is neither delivered nor failed");
}

// ---- the command line

static void refuse_usage(void)
{
    fprintf(stderr, "%s\n", usage);
    exit(2);
}

static long read_number(const char *word, long least, long most)
{
    char *end;
    errno = 0;
    long number = strtol(word, &end, 10);
    if (!isdigit((unsigned char)word[0]) || *end != 0 || errno != 0 || number < least || number > most)
        refuse_usage();
    return number;
}

static void read_baud(const char *word)
{
    long baud = read_number(word, 1, 1000000);
    for (size_t i = 0; i < COUNT(rates); i++) {
        if (rates[i].baud == baud) {
            asked.rate = rates[i];
            return;
        }
    }
    refuse_usage();
}

static void read_parity(const char *word)
{
    for (size_t i = 0; i < COUNT(parities); i++) {
        if (strcmp(word, parities[i]) == 0) {
            asked.parity = (uint8_t)i;
            return;
        }
    }
    refuse_usage();
}

static void read_option(const char *name, const char *value)
{
    if (value == NULL)
        refuse_usage();
    else if (strcmp(name, "--parity") == 0)
        read_parity(value);
    else if (strcmp(name, "--time-out") == 0)
        asked.time_out = (uint8_t)read_number(value, 0, 99);
    else if (strcmp(name, "--gap") == 0)
        asked.gap = read_number(value, 1, 10000) * MS;
    else if (strcmp(name, "--delay") == 0)
        asked.delay = read_number(value, 10, 60000) * MS;
    else if (strcmp(name, "--set") == 0)
        asked.set = value;
    else
        refuse_usage();
}

static void read_words(char **words)
{
    for (; *words != NULL && strncmp(*words, "--", 2) == 0; words += 2)
        read_option(words[0], words[1]);
    if (*words == NULL)
        refuse_usage();
    asked.device = *words++;
    if (*words != NULL)
        read_baud(*words++);
    if (*words != NULL)
        refuse_usage();
}

int main(int count, char **words)
{
    setvbuf(stdout, unwritten, _IOFBF, sizeof unwritten);
    if (count == 2 && strcmp(words[1], "--help") == 0) {
        fputs(help, stdout);
        flush_lines();
        return 0;
    }
    bool is_hub = count > 1 && strcmp(words[1], "hub") == 0;
    if (!is_hub && (count < 2 || strcmp(words[1], "reader") != 0))
        refuse_usage();
    read_words(words + 2);
    if (is_hub && asked.set != NULL) // a hub has no parameters
        refuse_usage();
    catch_signals();
    open_device();
    if (is_hub)
        run_hub();
    else
        run_reader();
    return 0;
}
