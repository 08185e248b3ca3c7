// The test of serial.c, which runs as hub and as reader, each on a pseudo-terminal.
//
//     line PROGRAM SEED     200 cards, with a seeded relay between the ends that loses and changes bytes as
//                           docs/PROTOCOL.md §14 allows
//     line PROGRAM alone    each end alone, with its other end played by hand
//
// The relay takes the time of the line: a packet is passed on when its last byte is over at the baud rate. It passes a
// damaged packet on only if the packet check accepts no part of what is left, else the packet as it came.
//
// Some cards are equal to the one before, and their first copies fare badly; some are of equal bytes.
//
// What is judged of the cards, and the first that breaks it is named:
// - handed out are, in order and once each, all cards that the reader calls delivered, with at most some it calls failed
//   (`judge_handed_out`);
// - a card is called failed where one of its packets was tried three times and no try was whole both ways, and else
//   delivered, with the right number of resends (`settle`, `judge_calls`);
// - each copy is the packet that is due, marked if it is a resend (`took_copy`); a piece that would equal the one
//   before it is a byte shorter (`cut`); each answer is the one that is due, and nothing else is written
//   (`took_answer`);
// - each silence is as long as it has to be, and no longer than it may be (`check_silence`).
//
// What is due at a time can fail for a busy machine alone: an answer that is late, a silence that was cut short. Such a
// run is untimely: it says so and is made again, five times at most.
#define _XOPEN_SOURCE 700

#include <errno.h>
#include <fcntl.h>
#include <poll.h>
#include <signal.h>
#include <stdarg.h>
#include <sys/wait.h>
#include <termios.h>
#include <time.h>
#include <unistd.h>

#include "ground.h"

// ---- what the programs are told, and what follows from it (docs/PROTOCOL.md §15); all times are microseconds

enum { MS = 1000, SECOND = 1000 * MS };
enum { GAP = 40 * MS, DELAY = 250 * MS, TENTHS = 8, TIME_OUT = TENTHS * 100 * MS };
enum { SLACK = 100 * MS, TRIES = 5, LIMIT = 180 * SECOND };

#define WORDS "--gap", "40", "--delay", "250"

static const char *baud;
static speed_t speed;
static int64_t byte_time;

static void go_fast(void)
{
    baud = "115200";
    speed = B115200;
    byte_time = 10 * SECOND / 115200 + 1;
}

static void go_slow(void)
{
    baud = "9600";
    speed = B9600;
    byte_time = 10 * SECOND / 9600 + 1;
}

static int64_t message_gap(int64_t time_out)
{
    int64_t answer = GAP + DELAY + MK_HUB_ANSWER_SIZE * byte_time + GAP;
    return answer + DELAY + 2 * (time_out + DELAY + MK_PACKET_SIZE * byte_time);
}

static int64_t now(void)
{
    struct timespec at;
    clock_gettime(CLOCK_MONOTONIC, &at);
    return (int64_t)at.tv_sec * SECOND + at.tv_nsec / 1000;
}

static int in_ms(int64_t time)
{
    return (int)((time + MS - 1) / MS);
}

// ---- the verdict on a run

enum { RUNNING, DONE, UNTIMELY, WRONG };

static struct {
    int how;
    char why[400];
} verdict;

// The first one holds.
static void rule(int how, const char *format, ...)
{
    va_list values;
    if (verdict.how != RUNNING)
        return;
    verdict.how = how;
    va_start(values, format);
    vsnprintf(verdict.why, sizeof verdict.why, format, values);
    va_end(values);
}

// ---- a program on a pseudo-terminal

typedef struct {
    const char *name;
    bool open;
    pid_t pid;          // 0: it has ended
    int master, slave;  // the slave is held open, so that the master outlasts the program
    int lines;          // its standard output
    char text[4 * MK_MESSAGE_SIZE];
    size_t count;       // of the line that has not ended
    mk_framer framer;   // of what it writes on the line
} program;

static program the_reader = {.name = "reader"}, the_hub = {.name = "hub"};
static const char *path;

static void become(const program *it, int input, int output, const char *const *words)
{
    dup2(input, STDIN_FILENO);
    dup2(output, STDOUT_FILENO);
    close(it->master);
    close(it->slave);
    execv(path, (char *const *)words);
    _exit(127);
}

static void open_terminal(program *it)
{
    it->master = posix_openpt(O_RDWR | O_NOCTTY);
    if (it->master < 0 || grantpt(it->master) != 0 || unlockpt(it->master) != 0)
        stop("line: no pseudo-terminal");
    it->slave = open(ptsname(it->master), O_RDWR | O_NOCTTY);
    if (it->slave < 0 || fcntl(it->master, F_SETFL, O_NONBLOCK) != 0)
        stop("line: no pseudo-terminal");
    fcntl(it->master, F_SETFD, FD_CLOEXEC);
    fcntl(it->slave, F_SETFD, FD_CLOEXEC);
}

static bool is_raw(const program *it)
{
    struct termios port;
    return tcgetattr(it->slave, &port) == 0 && (port.c_lflag & (ICANON | ECHO | ISIG)) == 0 &&
        (port.c_oflag & OPOST) == 0 && (port.c_iflag & (ICRNL | IXON | ISTRIP)) == 0 && cfgetospeed(&port) == speed;
}

static void sleep_for(int64_t time)
{
    struct timespec left = {time / SECOND, time % SECOND * 1000};
    nanosleep(&left, NULL);
}

// Starts it, with its words before the device.
static void begin(program *it, int input, const char *const *before)
{
    const char *words[16] = {path, it->name};
    size_t count = 2;
    int output[2];
    open_terminal(it);
    for (; *before != NULL; before++)
        words[count++] = *before;
    words[count++] = ptsname(it->master);
    words[count++] = baud;
    if (pipe(output) != 0)
        stop("line: no pipe");
    fcntl(output[0], F_SETFD, FD_CLOEXEC);
    fcntl(output[1], F_SETFD, FD_CLOEXEC);
    fflush(stdout);
    it->pid = fork();
    if (it->pid == 0)
        become(it, input, output[1], words);
    if (it->pid < 0)
        stop("line: no process");
    close(output[1]);
    it->lines = output[0];
    it->open = true;
    it->count = 0;
    mk_framer_init(&it->framer);
}

// And waits until it is ready: it has set its port.
static void start(program *it, int input, const char *const *before)
{
    begin(it, input, before);
    for (int64_t limit = now() + 20 * SECOND; !is_raw(it); sleep_for(2 * MS)) {
        if (now() > limit) {
            rule(WRONG, "the %s does not set its port", it->name);
            return;
        }
    }
}

// Its status, once it has ended; after five seconds it is ended.
static int status_of(program *it)
{
    int status = 0;
    int64_t limit = now() + 5 * SECOND;
    while (waitpid(it->pid, &status, WNOHANG) == 0) {
        if (now() > limit)
            kill(it->pid, SIGKILL);
        sleep_for(2 * MS);
    }
    it->pid = 0;
    return WIFEXITED(status) ? WEXITSTATUS(status) : -WTERMSIG(status);
}

static void hang_up(program *it)
{
    close(it->slave);
    close(it->master);
    it->slave = it->master = -1;
}

static void finish(program *it)
{
    if (it->pid > 0) {
        kill(it->pid, SIGCONT);
        kill(it->pid, SIGTERM);
        status_of(it);
    }
    if (it->open) {
        hang_up(it);
        close(it->lines);
    }
    it->open = false;
}

static void put(program *it, const uint8_t *bytes, size_t count)
{
    if (count > 0 && write(it->master, bytes, count) != (ssize_t)count)
        rule(WRONG, "the %s's terminal takes no more", it->name);
}

// The bytes that have come on the line; none where there are none.
static size_t take(program *it, uint8_t *bytes, size_t room)
{
    ssize_t count = read(it->master, bytes, room);
    if (count < 0 && errno != EAGAIN && errno != EINTR)
        rule(WRONG, "the %s's terminal cannot be read", it->name);
    return count > 0 ? (size_t)count : 0;
}

// Reads what there is of its lines and gives each on, its line feed cut off. False where they have ended.
static bool take_lines(program *it, void (*give)(const char *))
{
    ssize_t count = read(it->lines, it->text + it->count, sizeof it->text - 1 - it->count);
    if (count <= 0)
        return false;
    it->count += (size_t)count;
    it->text[it->count] = 0;
    for (char *end; (end = strchr(it->text, '\n')) != NULL;) {
        *end++ = 0;
        give(it->text);
        it->count -= (size_t)(end - it->text);
        memmove(it->text, end, it->count + 1);
    }
    if (it->count == sizeof it->text - 1)
        rule(WRONG, "the %s writes a line without an end", it->name);
    return true;
}

// ---- the cards

enum { CARDS = 200, LONGEST = 760, PIECE_SIZE = MK_DATA_SIZE - 1 };

static struct {
    size_t count; // of bytes behind the code type
    uint8_t data[1 + LONGEST];
    char due, called; // 'D' or 'F': by what the relay passed on, by the reader
    size_t due_resends, called_resends;
} cards[CARDS];

// Where a piece of a card starts, and how many bytes it has; the last one where there are fewer.
static size_t cut(size_t card, size_t piece, size_t *from)
{
    const uint8_t *bytes = cards[card].data + 1;
    size_t size = 0;
    for (*from = 0;; *from += size, piece--) {
        size_t before = size, left = cards[card].count - *from;
        if (left <= PIECE_SIZE)
            return left;
        bool alike = before == PIECE_SIZE && memcmp(bytes + *from - PIECE_SIZE, bytes + *from, PIECE_SIZE) == 0;
        size = alike ? PIECE_SIZE - 1 : PIECE_SIZE;
        if (piece == 0)
            return size;
    }
}

static bool is_last(size_t card, size_t piece)
{
    size_t from, size = cut(card, piece, &from);
    return from + size == cards[card].count;
}

static size_t packet_of(size_t card, size_t piece, bool marked, uint8_t *packet)
{
    uint8_t data[MK_DATA_SIZE];
    size_t from, size = cut(card, piece, &from);
    data[0] = cards[card].data[0];
    memcpy(data + 1, cards[card].data + 1 + from, size);
    uint8_t status = (uint8_t)((marked ? MK_STATUS_RESEND : 0) | (is_last(card, piece) ? 0 : MK_STATUS_MORE));
    return make_packet(packet, MK_OPCODE_DECODE_DATA, MK_SOURCE_READER, status, data, 1 + size);
}

// Whether a card begins with the last packet of the one before.
static bool begins_alike(size_t card)
{
    uint8_t before[MK_PACKET_SIZE], packet[MK_PACKET_SIZE];
    if (card == 0)
        return false;
    size_t last = packet_of(card - 1, SIZE_MAX, false, before);
    return packet_of(card, 0, false, packet) == last && memcmp(packet, before, last) == 0;
}

static size_t draw_count(void)
{
    static const size_t edges[] = {0, 1, 249, 250, 251, 499, 500, 501, 750, 751};
    switch (below(8)) {
    case 0:
        return edges[below(COUNT(edges))];
    case 1:
        return below(LONGEST + 1);
    case 2:
        return below(251);
    default:
        return below(40);
    }
}

// Now and then the card before once more, or the one before that; now and then all bytes are equal.
static void draw_card(size_t card)
{
    size_t back = 1 + below(2);
    if (card >= back && below(10) == 0) {
        memcpy(&cards[card], &cards[card - back], sizeof *cards);
        return;
    }
    cards[card].count = draw_count();
    cards[card].data[0] = (uint8_t)(0x1B + below(3));
    if (below(4) == 0) {
        memset(cards[card].data + 1, '8', cards[card].count);
        return;
    }
    for (size_t i = 1; i <= cards[card].count; i++)
        cards[card].data[i] = any_byte();
}

static void draw_cards(void)
{
    memset(cards, 0, sizeof cards);
    for (size_t card = 0; card < CARDS; card++)
        draw_card(card);
}

// `tt bb ..`, as in a card for the reader and in a line of the hub.
static char *card_text(size_t card)
{
    static char text[3 * (1 + LONGEST) + 1];
    for (size_t i = 0; i <= cards[card].count; i++)
        sprintf(text + 3 * i, " %02X", cards[card].data[i]);
    return text;
}

static int cards_file(void)
{
    FILE *file = tmpfile();
    if (file == NULL)
        stop("line: no file for the cards");
    for (size_t card = 0; card < CARDS; card++)
        fprintf(file, "S%s ;\n", card_text(card));
    fflush(file);
    rewind(file);
    return fileno(file);
}

// ---- what the line does

static struct {
    size_t copies, resends, repeats, far_repeats, lost, changed, looked;
    size_t alike, alike_lost, cut; // cards that begin alike, how often their first copy was not whole; cut pieces
} counts;

static bool rough; // it is bad for a while, then good again

// So that the check finds no packet anywhere in it, whatever is begun and wherever a gap is heard.
static bool holds_packet(const uint8_t *bytes, size_t count)
{
    size_t head[MK_HEAD_VALUES];
    for (size_t i = 0; i < count; i++) {
        if (mk_check(bytes + i, count - i, head) == MK_PACKET)
            return true;
    }
    return false;
}

// What is left of some bytes where one to all of them in a row are lost.
static size_t lose_some(uint8_t *bytes, size_t count)
{
    size_t lost = 1 + below(below(3) == 0 ? count : 3), from = below(count);
    if (lost > count - from)
        lost = count - from;
    memmove(bytes + from, bytes + from + lost, count - from - lost);
    return count - lost;
}

static size_t change_some(uint8_t *bytes, size_t count)
{
    for (size_t i = 0; i <= below(3); i++)
        bytes[below(count)] ^= (uint8_t)(1 + below(255));
    return count;
}

// Two neighbours change places. The sum is as it was, so only who looks knows what the check makes of it.
static size_t exchange_two(uint8_t *bytes, size_t count)
{
    size_t at = below(count - 1);
    uint8_t first = bytes[at];
    bytes[at] = bytes[at + 1];
    bytes[at + 1] = first;
    return count;
}

static size_t damage(uint8_t *bytes, size_t count, unsigned whole_lost)
{
    if (below(100) < whole_lost)
        return 0;
    switch (below(5)) {
    case 0:
    case 1:
        return lose_some(bytes, count);
    case 2:
        return exchange_two(bytes, count);
    default:
        return change_some(bytes, count);
    }
}

static void count_damage(const uint8_t *packet, size_t count, const uint8_t *bytes, size_t left)
{
    counts.lost += count - left;
    for (size_t i = 0; left == count && i < count; i++)
        counts.changed += packet[i] != bytes[i];
}

// How bad it is, in hundredths, while the line is good and while it is rough; and how often all of it is lost then.
typedef struct {
    unsigned good, rough, whole_lost;
} badness;

// What arrives of a packet: as many bytes as are told, and none other than a whole packet that the check accepts.
static size_t carry(const uint8_t *packet, size_t count, badness bad, uint8_t *bytes)
{
    rough = rough ? below(4) != 0 : below(16) == 0;
    memcpy(bytes, packet, count);
    if (below(100) >= (rough ? bad.rough : bad.good))
        return count;
    size_t left = damage(bytes, count, bad.whole_lost);
    if (holds_packet(bytes, left)) {
        counts.looked++;
        memcpy(bytes, packet, count);
        return count;
    }
    count_damage(packet, count, bytes, left);
    return left;
}

// ---- the relay

typedef struct {
    program *from;
    uint8_t packet[MK_PACKET_SIZE];
    size_t count;   // 0: none is on its way
    int64_t read;   // when it was read
    int64_t over;   // when its last byte is over, and it is passed on
    int64_t before; // when the one before it was over
} way;

static way down = {.from = &the_reader}, up = {.from = &the_hub};

// What is due next, and what became of the last copy.
static struct {
    size_t card, piece, tries; // so many copies of this packet
    size_t marked;             // so many marked copies of this card
    bool whole, answered;      // the last copy; an answer to it, ACK or NAK, was passed on whole
    bool had;                  // the hub has this packet
    bool answer_due;
    bool gap_due;              // a message gap before the next copy
    bool alike;                // this card begins with the last packet of the one before, which was delivered
    bool behind_gap;           // the hub has heard nothing since a message gap
    int64_t heard;             // when it heard something last
} due;

static void next_card(char called)
{
    cards[due.card].due = called;
    cards[due.card].due_resends = due.marked;
    due.card++;
    due.piece = due.marked = 0;
    due.alike = called == 'D' && due.card < CARDS && begins_alike(due.card);
    due.gap_due = called == 'F' || due.alike;
}

// The last copy is answered or not, in time: what that makes due. A packet is done with copy and answer whole; a card
// has failed with three tries of one packet, none of them whole both ways.
static void settle(void)
{
    bool done = due.tries > 0 && due.whole && due.answered;
    if (!done && due.tries < 3)
        return;
    due.tries = 0;
    due.had = false;
    if (!done)
        next_card('F');
    else if (is_last(due.card, due.piece))
        next_card('D');
    else
        due.piece++;
}

static const char *hex(const uint8_t *bytes, size_t count)
{
    static char text[3 * 24 + 1];
    text[0] = 0;
    for (size_t i = 0; i < count && i < 24; i++)
        sprintf(text + 3 * i, " %02X", bytes[i]);
    return text;
}

// Behind a copy that was lost, or whose answer was, the resend comes with the time-out; else a copy comes at once. A
// message gap is longer than any silence inside a message.
static void check_silence(void)
{
    int64_t silence = down.read - down.before, least = GAP;
    if (due.gap_due)
        least = message_gap(TIME_OUT);
    else if (due.tries > 0 && !due.answered)
        least = TIME_OUT - SLACK;
    int64_t most = (due.gap_due ? least + GAP : TIME_OUT) + DELAY;
    if (silence < least || silence > most)
        rule(UNTIMELY, "card %zu: %d ms of silence before a copy, where %d to %d are due", due.card + 1, in_ms(silence),
            in_ms(least), in_ms(most));
}

static void took_copy(void)
{
    uint8_t packet[MK_PACKET_SIZE];
    if (due.answer_due || up.count > 0)
        rule(UNTIMELY, "card %zu: a copy came while the answer to the one before was out", due.card + 1);
    settle();
    if (due.card == CARDS) {
        rule(WRONG, "a copy came behind the last card:%s", hex(down.packet, down.count));
        return;
    }
    size_t size = packet_of(due.card, due.piece, due.tries > 0, packet);
    if (down.count != size || memcmp(down.packet, packet, size) != 0)
        rule(WRONG, "card %zu, piece %zu, try %zu: not the packet that is due:%s", due.card + 1, due.piece + 1,
            due.tries + 1, hex(down.packet, down.count));
    check_silence();
    due.behind_gap |= due.gap_due;
    due.gap_due = false;
    counts.copies++;
    counts.resends += due.tries > 0;
    counts.cut += due.tries == 0 && !is_last(due.card, due.piece) && size < MK_PACKET_SIZE;
    due.marked += due.tries > 0;
    due.tries++;
    due.answered = due.whole = false;
}

static void pass_copy(void)
{
    static const badness bad = {4, 60, 15}, worse = {60, 60, 60};
    uint8_t bytes[MK_PACKET_SIZE];
    bool first_alike = due.alike && due.tries == 1;
    size_t left = carry(down.packet, down.count, first_alike ? worse : bad, bytes);
    int64_t silence = now() - due.heard;
    if (left > 0 && !due.behind_gap && silence > message_gap(TIME_OUT))
        rule(UNTIMELY, "card %zu: %d ms of silence at the hub inside a message", due.card + 1, in_ms(silence));
    put(&the_hub, bytes, left);
    due.whole = left == down.count && memcmp(bytes, down.packet, left) == 0;
    counts.alike += first_alike;
    counts.alike_lost += first_alike && !due.whole;
    counts.repeats += due.whole && due.had;
    counts.far_repeats += due.whole && due.had && silence > 2 * TIME_OUT - SLACK;
    due.had |= due.whole;
    due.answer_due = left > 0;
    if (left > 0) {
        due.behind_gap = false;
        due.heard = now();
    }
    down.before = down.over;
    down.count = 0;
}

// A whole copy is acknowledged, what is left of a spoiled one gets one NAK.
static void took_answer(void)
{
    const char *text = due.whole ? HUB_ACK : HUB_NAK_1;
    if (!due.answer_due)
        rule(WRONG, "card %zu: the hub answers where nothing came:%s", due.card + 1, hex(up.packet, up.count));
    if (!reads(up.packet, up.count, text))
        rule(WRONG, "card %zu: not the answer %s:%s", due.card + 1, text, hex(up.packet, up.count));
    if (up.read - up.before < GAP)
        rule(UNTIMELY, "card %zu: the hub kept silent for %d ms", due.card + 1, in_ms(up.read - up.before));
    due.answer_due = false;
}

static void pass_answer(void)
{
    static const badness bad = {2, 25, 40};
    uint8_t bytes[MK_PACKET_SIZE];
    size_t left = carry(up.packet, up.count, bad, bytes);
    put(&the_reader, bytes, left);
    due.answered = left == up.count && memcmp(bytes, up.packet, left) == 0;
    if (now() - down.before > TIME_OUT - SLACK)
        rule(UNTIMELY, "card %zu: a late answer, %d ms behind its copy", due.card + 1, in_ms(now() - down.before));
    up.before = up.over;
    up.count = 0;
}

static void listen_to(way *it, void (*took)(void))
{
    uint8_t bytes[2 * MK_PACKET_SIZE];
    size_t count = take(it->from, bytes, sizeof bytes);
    for (size_t i = 0; i < count; i++) {
        mk_found told = mk_framer_event(&it->from->framer, bytes[i]);
        if (told.number != MK_NOTHING && told.number != MK_PACKET)
            rule(WRONG, "the %s sent what is no packet:%s", it->from->name, hex(bytes, count));
        if (told.number == MK_PACKET && it->count > 0)
            rule(UNTIMELY, "the %s sent two packets at once", it->from->name);
        if (told.number != MK_PACKET)
            continue;
        it->count = told.head.length + 2;
        memcpy(it->packet, it->from->framer.line, it->count);
        it->read = now();
        it->over = it->read + (int64_t)it->count * byte_time;
        took();
    }
}

// ---- what the ends tell

static char *handed[2 * CARDS];
static size_t handed_out, called;

static void reader_line(const char *text)
{
    unsigned resends;
    if ((text[0] != 'D' && text[0] != 'F') || sscanf(text + 1, "%u", &resends) != 1)
        return;
    if (called == CARDS) {
        rule(WRONG, "the reader tells of more cards than there are: %s", text);
        return;
    }
    cards[called].called = text[0];
    cards[called++].called_resends = resends;
}

static void hub_line(const char *text)
{
    if (text[0] != 'M')
        return;
    if (handed_out == COUNT(handed))
        rule(WRONG, "the hub hands out without end");
    else
        handed[handed_out++] = strdup(text + 1);
}

// The relay's own promise to the reader: a card is called what the tries made of it.
static void judge_calls(void)
{
    for (size_t card = 0; card < CARDS; card++) {
        if (cards[card].called != cards[card].due || cards[card].called_resends != cards[card].due_resends)
            rule(WRONG, "card %zu: %c %zu is due, and the reader called %c %zu", card + 1, cards[card].due,
                cards[card].due_resends, cards[card].called, cards[card].called_resends);
    }
}

// Going down both lists, each message handed out is a card, whole; a card is passed over only if it is called failed.
// `reached` are the numbers of messages that the cards so far can have been.
static void judge_handed_out(void)
{
    bool reached[COUNT(handed) + 1] = {true};
    for (size_t card = 0; card < CARDS; card++) {
        const char *text = card_text(card);
        bool any = false;
        for (size_t i = handed_out + 1; i-- > 0;) {
            bool here = i > 0 && reached[i - 1] && strcmp(handed[i - 1], text) == 0;
            reached[i] = here || (reached[i] && cards[card].called == 'F');
            any |= reached[i];
        }
        if (!any)
            rule(WRONG, "card %zu, called %c: not handed out in its place, once and whole:%s", card + 1,
                cards[card].called, text);
    }
    if (!reached[handed_out])
        rule(WRONG, "the hub handed out more than the cards, in the end%s", handed[handed_out - 1]);
}

// Each kind that the seed is meant to bring came.
static void judge_counts(void)
{
    size_t failed = 0;
    for (size_t card = 0; card < CARDS; card++)
        failed += cards[card].called == 'F';
    if (verdict.how != RUNNING)
        return;
    printf("line: %d cards, %zu delivered, %zu failed, %zu handed out; %zu copies, %zu resends, %zu repeats (%zu behind "
           "two time-outs); %zu bytes lost, %zu changed; %zu packets left whole; %zu cards begin alike, %zu of their "
           "first copies lost; %zu pieces cut\n",
        CARDS, CARDS - failed, failed, handed_out, counts.copies, counts.resends, counts.repeats, counts.far_repeats,
        counts.lost, counts.changed, counts.looked, counts.alike, counts.alike_lost, counts.cut);
    if (failed == 0 || handed_out <= CARDS - failed || handed_out == CARDS || counts.resends == 0 || counts.lost == 0 ||
        counts.repeats == counts.far_repeats || counts.far_repeats == 0 || counts.changed == 0 || counts.looked == 0 ||
        counts.alike == counts.alike_lost || counts.alike_lost == 0 || counts.cut == 0)
        rule(WRONG, "the seed does not bring all of these: failed cards that were handed out and that were not, "
                    "resends, repeats behind one and two time-outs, bytes lost and changed, packets left whole, first "
                    "copies of cards that begin alike whole and lost, pieces cut");
}

// ---- 200 cards

static int wait_time(void)
{
    int64_t until = now() + 100 * MS;
    if (down.count > 0 && down.over < until)
        until = down.over;
    if (up.count > 0 && up.over < until)
        until = up.over;
    return until > now() ? in_ms(until - now()) : 0;
}

static void relay(void)
{
    struct pollfd ready[] = {{the_reader.master, POLLIN, 0}, {the_hub.master, POLLIN, 0}, {the_reader.lines, POLLIN, 0},
        {the_hub.lines, POLLIN, 0}};
    if (poll(ready, COUNT(ready), wait_time()) < 0 && errno != EINTR)
        stop("line: poll");
    if (ready[0].revents != 0)
        listen_to(&down, took_copy);
    if (ready[1].revents != 0)
        listen_to(&up, took_answer);
    if (down.count > 0 && now() >= down.over)
        pass_copy();
    if (up.count > 0 && now() >= up.over)
        pass_answer();
    if (ready[3].revents != 0 && !take_lines(&the_hub, hub_line))
        rule(WRONG, "the hub has ended with status %d", status_of(&the_hub));
    if (ready[2].revents != 0 && !take_lines(&the_reader, reader_line))
        rule(DONE, "the reader has ended");
}

static void forget_run(void)
{
    while (handed_out > 0)
        free(handed[--handed_out]);
    called = 0;
    memset(&counts, 0, sizeof counts);
    memset(&due, 0, sizeof due);
    down.count = up.count = 0;
    rough = false;
}

// The host's part at the start: 9Bh is set. The hub does not hear it.
static void set_time_out(void)
{
    uint8_t packet[MK_PACKET_SIZE];
    const uint8_t data[] = {0xFF, MK_PARAMETER_RESPONSE_TIME_OUT, TENTHS};
    put(&the_reader, packet, make_packet(packet, MK_OPCODE_PARAM_SEND, MK_SOURCE_HOST, 0, data, sizeof data));
    size_t count = 0;
    for (int64_t limit = now() + 10 * SECOND; count < 6 && now() < limit; sleep_for(MS))
        count += take(&the_reader, packet + count, sizeof packet - count);
    if (!reads(packet, count, READER_ACK))
        rule(WRONG, "9Bh is not set");
}

static void cards_over_the_line(void)
{
    const char *const reader_words[] = {WORDS, NULL}, *const hub_words[] = {WORDS, "--time-out", "8", NULL};
    int64_t limit = now() + LIMIT;
    forget_run();
    draw_cards();
    int input = cards_file();
    start(&the_hub, STDIN_FILENO, hub_words);
    start(&the_reader, input, reader_words);
    set_time_out();
    due.gap_due = true;
    due.heard = down.before = now();
    up.before = now() - SECOND;
    while (verdict.how == RUNNING && now() < limit)
        relay();
    rule(WRONG, "the time is over, at card %zu", due.card + 1);
    if (verdict.how != DONE)
        return;
    verdict.how = RUNNING;
    settle();
    int status = status_of(&the_reader);
    if (status != 0 || called < CARDS)
        rule(WRONG, "the reader ended with status %d and %zu cards called delivered or failed", status, called);
    kill(the_hub.pid, SIGTERM);
    while (take_lines(&the_hub, hub_line))
        continue;
    if ((status = status_of(&the_hub)) != 0)
        rule(WRONG, "the hub ended with status %d", status);
    judge_calls();
    judge_handed_out();
    judge_counts();
}

// ---- one end alone, the other played by hand

static char *told[64]; // lines that came and were not yet asked for
static size_t tolds;
static int64_t silent_since;

static void keep_line(const char *text)
{
    if (tolds < COUNT(told))
        told[tolds++] = strdup(text);
}

static void forget_lines(void)
{
    while (tolds > 0)
        free(told[--tolds]);
}

// Its next line, within ten seconds.
static void hear_line(program *it, const char *text)
{
    for (int64_t limit = now() + 10 * SECOND; tolds == 0 && now() < limit;) {
        struct pollfd ready = {it->lines, POLLIN, 0};
        if (poll(&ready, 1, 100) > 0 && !take_lines(it, keep_line))
            break;
    }
    if (tolds == 0 || strcmp(told[0], text) != 0)
        rule(WRONG, "the %s's line is not \"%s\" but \"%s\"", it->name, text, tolds == 0 ? "" : told[0]);
    if (tolds == 0)
        return;
    free(told[0]);
    memmove(told, told + 1, --tolds * sizeof *told);
}

// Its next packet within a time, or none (0).
static size_t next_packet(program *it, int64_t time, uint8_t *packet)
{
    uint8_t byte;
    for (int64_t limit = now() + time; now() < limit;) {
        struct pollfd ready = {it->master, POLLIN, 0};
        if (poll(&ready, 1, in_ms(limit - now())) <= 0 || take(it, &byte, 1) == 0)
            continue;
        mk_found heard = mk_framer_event(&it->framer, byte);
        if (heard.number == MK_PACKET) {
            memcpy(packet, it->framer.line, heard.head.length + 2);
            return heard.head.length + 2;
        }
        if (heard.number != MK_NOTHING)
            rule(WRONG, "the %s sends what is no packet", it->name);
    }
    return 0;
}

// This packet, behind a silence from its last one that is so long at least and at most. Played by hand, another packet
// may be for the time too: what was put in came late.
static void hear_packet(program *it, const char *text, int64_t least, int64_t most)
{
    uint8_t packet[MK_PACKET_SIZE];
    size_t count = next_packet(it, most + 2 * SECOND, packet);
    int64_t silence = now() - silent_since;
    if (count == 0)
        rule(UNTIMELY, "the %s does not send %s", it->name, text);
    else if (!reads(packet, count, text))
        rule(UNTIMELY, "the %s does not send %s but%s", it->name, text, hex(packet, count));
    else if (silence < least || silence > most)
        rule(UNTIMELY, "the %s sends %s behind %d ms of silence, not %d to %d", it->name, text, in_ms(silence),
            in_ms(least), in_ms(most));
    sleep_for((int64_t)count * byte_time); // it is on the line so long
    silent_since = now();
}

static void hear_nothing(program *it, int64_t time)
{
    uint8_t packet[MK_PACKET_SIZE];
    size_t count = next_packet(it, time, packet);
    if (count > 0)
        rule(WRONG, "the %s is not silent:%s", it->name, hex(packet, count));
}

static void put_text(program *it, const char *text)
{
    uint8_t bytes[EVENTS];
    put(it, bytes, read_bytes(text, bytes));
}

static void expect_status(program *it, int due_status)
{
    int status = status_of(it);
    if (status != due_status)
        rule(WRONG, "the %s ends with status %d, not %d", it->name, status, due_status);
}

static int text_file(const char *text)
{
    FILE *file = tmpfile();
    if (file == NULL)
        stop("line: no file for the cards");
    fputs(text, file);
    fflush(file);
    rewind(file);
    return fileno(file);
}

static void start_reader(const char *tenths, int input)
{
    const char *const words[] = {WORDS, "--time-out", tenths, NULL};
    forget_lines();
    start(&the_reader, input, words);
    silent_since = now();
}

static void start_hub(const char *tenths)
{
    const char *const words[] = {WORDS, "--time-out", tenths, NULL};
    forget_lines();
    start(&the_hub, STDIN_FILENO, words);
    silent_since = now();
}

// A message gap before the first card, and before one that equals the one before it, whose first copy is lost; an ACK
// and a command that come in that gap are not heard. None before a card of another type.
static void equal_cards(void)
{
    int64_t gap = message_gap(TIME_OUT);
    start_reader("8", text_file("S 1B 38 ;\nS 1b \"8\" ; S 1C 38 ;"));
    hear_packet(&the_reader, PIECE, gap - SLACK, gap + GAP + DELAY);
    put_text(&the_reader, HUB_ACK);
    hear_line(&the_reader, "C " PIECE);
    hear_line(&the_reader, "D 0");
    hear_line(&the_reader, "I");
    put_text(&the_reader, HUB_ACK "05 E6 04 00 01 FF 10");
    hear_packet(&the_reader, PIECE, gap, gap + GAP + DELAY);
    hear_packet(&the_reader, MARKED_PIECE, TIME_OUT - SLACK, TIME_OUT + DELAY);
    put_text(&the_reader, HUB_ACK);
    hear_line(&the_reader, "C " PIECE);
    hear_line(&the_reader, "C " MARKED_PIECE);
    hear_line(&the_reader, "D 1");
    hear_packet(&the_reader, "06 F3 00 00 1C 38 FE B3", GAP, TIME_OUT);
    put_text(&the_reader, HUB_ACK);
    hear_line(&the_reader, "C 06 F3 00 00 1C 38 FE B3");
    hear_line(&the_reader, "D 0");
    expect_status(&the_reader, 0);
}

// An ACK that comes while the copy is on the line is not heard, nor is a second one in a lump with the copy's own. The
// time-out is 400 ms, and begins with each copy. A long copy takes 268 ms on this line, and comes at once over a
// pseudo-terminal.
static void acks_that_do_not_count(void)
{
    char text[1024] = "S 1B", first[1024], marked[1024];
    uint8_t packet[MK_PACKET_SIZE], data[MK_DATA_SIZE];
    memset(data, 0x20, sizeof data);
    data[0] = 0x1B;
    for (int i = 0; i < PIECE_SIZE; i++)
        strcat(text, " 20");
    go_slow();
    start_reader("4", text_file(strcat(text, " 38 ;")));
    for (int mark = 0; mark < 2; mark++) {
        uint8_t status = (uint8_t)(MK_STATUS_MORE | mark);
        size_t size = make_packet(packet, MK_OPCODE_DECODE_DATA, 0, status, data, sizeof data);
        for (size_t i = 0; i < size; i++)
            sprintf((mark ? marked : first) + 3 * i, "%02X ", packet[i]);
    }
    size_t size = next_packet(&the_reader, 10 * SECOND, packet);
    put_text(&the_reader, HUB_ACK);
    if (!reads(packet, size, first))
        rule(WRONG, "not the first piece:%s", hex(packet, size));
    sleep_for(MK_PACKET_SIZE * byte_time);
    silent_since = now();
    hear_packet(&the_reader, marked, 400 * MS - SLACK, 400 * MS + DELAY);
    put_text(&the_reader, HUB_ACK HUB_ACK);
    hear_packet(&the_reader, PIECE, GAP, DELAY);
    hear_packet(&the_reader, MARKED_PIECE, 400 * MS - SLACK, 400 * MS + DELAY);
    hear_packet(&the_reader, MARKED_PIECE, 400 * MS - SLACK, 400 * MS + DELAY);
    sleep_for(200 * MS);
    put_text(&the_reader, HUB_ACK);
    expect_status(&the_reader, 0);
}

// A hub that was stopped is late: it takes the packet and sends nothing. It remembers for a message gap, and no longer.
// Between two answers it is silent too, also where their packets came in one lump. Of a lump with a wrong checksum it
// ignores the rest.
static void late_hub(void)
{
    int64_t gap = message_gap(TIME_OUT);
    start_hub("8");
    kill(the_hub.pid, SIGSTOP);
    put_text(&the_hub, PIECE);
    sleep_for(GAP + DELAY + SLACK);
    kill(the_hub.pid, SIGCONT);
    hear_line(&the_hub, "M 1B 38");
    hear_nothing(&the_hub, 4 * GAP);
    put_text(&the_hub, MARKED_PIECE);
    hear_packet(&the_hub, HUB_ACK, 0, SECOND);
    hear_line(&the_hub, "A " HUB_ACK);
    sleep_for(gap - SLACK);
    put_text(&the_hub, MARKED_PIECE);
    hear_packet(&the_hub, HUB_ACK, 0, gap + SECOND);
    hear_line(&the_hub, "A " HUB_ACK);
    sleep_for(gap + 2 * GAP + SLACK);
    put_text(&the_hub, MARKED_PIECE);
    hear_packet(&the_hub, HUB_ACK, 0, gap + SECOND);
    hear_line(&the_hub, "M 1B 38");
    hear_line(&the_hub, "A " HUB_ACK);
    put_text(&the_hub, MARKED_PIECE EMPTY_PIECE "06 F3");
    hear_packet(&the_hub, HUB_ACK, 0, SECOND);
    hear_packet(&the_hub, HUB_ACK, GAP, SECOND);
    hear_packet(&the_hub, HUB_NAK_1, GAP, SECOND);
    hear_line(&the_hub, "A " HUB_ACK);
    hear_line(&the_hub, "M 1B");
    hear_line(&the_hub, "A " HUB_ACK);
    hear_line(&the_hub, "R 3");
    hear_line(&the_hub, "A " HUB_NAK_1);
    put_text(&the_hub, "06 F3 00 00 1B 38 FE B5" PIECE);
    hear_packet(&the_hub, HUB_NAK_1, GAP, SECOND);
    hear_line(&the_hub, "R 2");
    hear_line(&the_hub, "A " HUB_NAK_1);
    hear_nothing(&the_hub, 4 * GAP);
    kill(the_hub.pid, SIGTERM);
    expect_status(&the_hub, 0);
}

// What a host commands while there is no card; the baud rate follows behind its answer. Then wrong input.
static void commands(void)
{
    struct termios port;
    int input[2];
    if (pipe(input) != 0)
        stop("line: no pipe");
    fcntl(input[1], F_SETFD, FD_CLOEXEC);
    start_reader("20", input[0]);
    close(input[0]);
    put_text(&the_reader, "05 E6 04 00 01 FF 10");
    hear_packet(&the_reader, READER_ACK, 0, SECOND);
    hear_line(&the_reader, "B 0 0 2");
    hear_line(&the_reader, "G 1 0 0 0");
    hear_line(&the_reader, "A " READER_ACK);
    put_text(&the_reader, "05 E6 04 00 01 FF 11");
    hear_packet(&the_reader, READER_NAK_1, GAP, SECOND);
    hear_line(&the_reader, "R 2");
    hear_line(&the_reader, "A " READER_NAK_1);
    sleep_for(2 * GAP);
    put_text(&the_reader, "07 C6 04 00 FF 9C 07 FD 8D");
    hear_packet(&the_reader, READER_ACK, GAP, SECOND);
    hear_line(&the_reader, "G 1 0 0 0");
    hear_line(&the_reader, "A " READER_ACK);
    sleep_for(SLACK);
    if (tcgetattr(the_reader.slave, &port) != 0 || cfgetospeed(&port) != B19200)
        rule(WRONG, "the baud rate does not follow 9Ch");
    if (write(input[1], "U P U S 1B 3", 12) != 12)
        rule(WRONG, "the reader's input takes nothing");
    hear_line(&the_reader, "U 00 0A 00 14 07 04 01 00 01");
    hear_line(&the_reader, "U 00 0A 00 14 06 04 01 00 01");
    close(input[1]);
    hear_line(&the_reader, "E");
    expect_status(&the_reader, 1);
}

// The file that stands for flash, beside the program.
static const char *set_file(void)
{
    static char name[FILENAME_MAX];
    snprintf(name, sizeof name, "%s.set", path);
    return name;
}

static void put_set(const char *text)
{
    uint8_t form[EVENTS];
    size_t size = read_bytes(text, form);
    FILE *file = fopen(set_file(), "wb");
    if (file == NULL || fwrite(form, 1, size, file) != size || fclose(file) != 0)
        stop("line: no file for the set");
}

static void expect_set(const char *text)
{
    uint8_t form[EVENTS];
    FILE *file = fopen(set_file(), "rb");
    size_t size = file == NULL ? 0 : fread(form, 1, sizeof form, file);
    if (file != NULL)
        fclose(file);
    if (!reads(form, size, text))
        rule(WRONG, "the set that is kept is not %s but%s", text, hex(form, size));
}

// Its input stays open until what it gives is closed.
static int start_keeper(const char *tenths)
{
    const char *const words[] = {WORDS, "--time-out", tenths, "--set", set_file(), NULL};
    int input[2];
    if (pipe(input) != 0)
        stop("line: no pipe");
    fcntl(input[1], F_SETFD, FD_CLOEXEC);
    forget_lines();
    start(&the_reader, input[0], words);
    close(input[0]);
    silent_since = now();
    return input[1];
}

static void ask_values(int input, const char *line)
{
    if (write(input, "U", 1) != 1)
        rule(WRONG, "the reader's input takes nothing");
    hear_line(&the_reader, line);
}

static void end_keeper(int input)
{
    close(input);
    expect_status(&the_reader, 0);
    finish(&the_reader);
}

// A value set for ever is kept, one set for now is not. At the next start the set holds, and not the options.
static void kept_set(void)
{
    remove(set_file());
    int input = start_keeper("20");
    put_text(&the_reader, "07 C6 04 00 FF ED 05 FD 3E");
    hear_packet(&the_reader, READER_ACK, 0, SECOND);
    hear_line(&the_reader, "G 1 0 0 0");
    hear_line(&the_reader, "A " READER_ACK);
    expect_set("");
    sleep_for(2 * GAP);
    put_text(&the_reader, "07 C6 04 08 FF 8A 08 FD 96");
    hear_packet(&the_reader, READER_ACK, GAP, SECOND);
    hear_line(&the_reader, "G 1 0 0 0");
    hear_line(&the_reader, "A " READER_ACK);
    expect_set("01 09 80 00 89 0A 8A 08 9B 14 9C 06 9E 04 9F 01 ED 00 EE 01 00");
    end_keeper(input);
    input = start_keeper("8");
    ask_values(input, "U 00 0A 08 14 06 04 01 00 01");
    end_keeper(input);
}

// Locks hold from the start. The set's baud rate is that of the port, where BAUD is another that 9Ch has.
static void locked_set(void)
{
    go_slow();
    speed = B19200; // which the start waits for
    put_set("01 09 80 00 89 0A 8A 08 9B 14 9C 07 9E 04 9F 01 ED 00 EE 01 01 8A");
    int input = start_keeper("8");
    ask_values(input, "U 00 0A 08 14 07 04 01 00 01");
    put_text(&the_reader, "07 C6 04 08 FF 8A 00 FD 9E");
    hear_packet(&the_reader, READER_NAK_6, 0, SECOND);
    hear_line(&the_reader, "R 9");
    hear_line(&the_reader, "A " READER_NAK_6);
    end_keeper(input);
}

// What is no set is left as it is, and the first values hold.
static void no_set(void)
{
    put_set("01 09 80 00");
    int input = start_keeper("8");
    ask_values(input, "U 00 0A 00 08 06 04 01 00 01");
    end_keeper(input);
    expect_set("01 09 80 00");
    remove(set_file());
}

// A card that is too long is refused, and the next one sent.
static void long_card(void)
{
    static char text[3 * (MK_MESSAGE_SIZE + 2) + 32] = "S 1B";
    for (size_t i = 0; i <= MK_MESSAGE_SIZE; i++)
        memcpy(text + 4 + 3 * i, " 38", 4);
    start_reader("0", text_file(strcat(text, "; S 1B 38 ;")));
    hear_line(&the_reader, "R 11");
    hear_packet(&the_reader, PIECE, GAP, 5 * SECOND);
    put_text(&the_reader, HUB_NAK_2);
    hear_line(&the_reader, "C " PIECE);
    hear_line(&the_reader, "F 0");
    expect_status(&the_reader, 0);
}

// A line that goes away, and a port that cannot be as asked for, are errors.
static void no_line(void)
{
    const char *const odd[] = {"--parity", "odd", NULL}; // which a pseudo-terminal has not
    begin(&the_hub, STDIN_FILENO, odd);
    expect_status(&the_hub, 1);
    finish(&the_hub);
    start_hub("0");
    hang_up(&the_hub);
    expect_status(&the_hub, 1);
    start_reader("0", text_file("S 1B 38 ;"));
    hang_up(&the_reader);
    expect_status(&the_reader, 1);
}

// ---- all parts

typedef struct {
    const char *name;
    void (*run)(void);
} part;

static void run_part(const part *it, uint64_t first_seed)
{
    for (int tries = 1;; tries++) {
        verdict.how = RUNNING;
        seed = first_seed;
        go_fast();
        it->run();
        finish(&the_reader);
        finish(&the_hub);
        if (verdict.how == RUNNING || verdict.how == DONE)
            return;
        fprintf(stderr, "line: %s: %s%s\n", it->name, verdict.how == UNTIMELY ? "untimely: " : "", verdict.why);
        if (verdict.how == WRONG || tries == TRIES)
            exit(1);
    }
}

int main(int count, char **words)
{
    static const part alone[] = {{"commands", commands}, {"a kept set", kept_set}, {"a locked set", locked_set},
        {"no set", no_set}, {"a long card", long_card}, {"no line", no_line},
        {"ACKs that do not count", acks_that_do_not_count}, {"equal cards", equal_cards}, {"a late hub", late_hub}};
    static const part over = {"200 cards", cards_over_the_line};
    if (count != 3)
        stop("usage: line PROGRAM SEED, or line PROGRAM alone");
    path = words[1];
    signal(SIGPIPE, SIG_IGN);
    if (strcmp(words[2], "alone") != 0)
        run_part(&over, strtoull(words[2], NULL, 10));
    for (size_t i = 0; strcmp(words[2], "alone") == 0 && i < COUNT(alone); i++)
        run_part(&alone[i], 1);
    return 0;
}
