// Passes of a hub and a reader, as a firmware in C makes them: the proved library's through the header's own functions,
// the peer's through its calls. All come of one macro, or of one for blocks, so loop and looking are the same for both.
// With no machine it is the loop alone, which is counted too and subtracted (src/in_c.rs).
#include "motikhund.h"
#include "peer.h"

// What is told is sent or filed by a call. It is given in registers, and all of it is in the tally, as in src/passes.rs.
static __attribute__((noinline)) size_t heed_hub(uint32_t number, size_t answer, size_t code, size_t count)
{
    return number + answer + code + count;
}

static __attribute__((noinline)) size_t heed_reader(
    uint32_t number, size_t answer, size_t duration, size_t pitch, size_t count, size_t value)
{
    return number + answer + duration + pitch + count + value;
}

static __attribute__((noinline)) size_t heed_block(
    uint32_t number, size_t answers, size_t code, size_t count, size_t taken)
{
    return number + answers + code + count + taken;
}

#define HEED_HUB(told) heed_hub((told).number, (told).answer, (told).code, (told).count)
// A seventh number would go over the stack: that a permanent value changed goes with the sender's value, since no event
// brings both.
#define HEED_READER(told, beep, permanent) \
    heed_reader( \
        (told).number, (told).answer, (beep).duration, (beep).pitch, (beep).count, (told).value + (permanent))
#define HEED_PROVED_READER(told) HEED_READER(told, (told).beep, (told).permanent)
#define HEED_PEER_READER(told) HEED_READER(told, told, (told).changed)

// No machine: it has an event in a register, as an argument would be, and tells nothing.
typedef struct {
    char none;
} none;

typedef struct {
    uint32_t number;
    uint8_t answer, code, count;
} none_told;

static inline void none_init(none *machine)
{
    (void)machine;
}

static inline none_told none_event(none *machine, uint32_t event)
{
    (void)machine;
    __asm__ volatile("" : : "r"(event));
    return (none_told){0, 0, 0, 0};
}

// All events of a pass, from the same state each time, on a machine that is lent. Of what is told, a firmware looks at
// the number, and at the rest only where that is not 0.
#define PASS(NAME, MACHINE, HEED)                                            \
    const size_t NAME##_size = sizeof(MACHINE);                              \
    size_t NAME(void *lent, const uint16_t *events, size_t count);           \
    size_t NAME(void *lent, const uint16_t *events, size_t count)            \
    {                                                                        \
        MACHINE *machine = lent;                                             \
        size_t tally = 0;                                                    \
        MACHINE##_init(machine);                                             \
        for (size_t i = 0; i < count; i++) {                                 \
            const MACHINE##_told told = MACHINE##_event(machine, events[i]); \
            if (told.number != 0)                                            \
                tally += HEED(told);                                         \
        }                                                                    \
        return tally;                                                        \
    }

PASS(pass_proved_hub, mk_hub, HEED_HUB)
PASS(pass_peer_hub, peer_hub, HEED_HUB)
PASS(pass_proved_reader, mk_reader, HEED_PROVED_READER)
PASS(pass_peer_reader, peer_reader, HEED_PEER_READER)
PASS(pass_none, none, HEED_HUB)

// ---- blocks

// The room that is lent for the answers of a block.
enum {
    ANSWERS_SIZE = 64
};

// Where the values stand that the library's call tells.
enum {
    AT_ANSWERS,
    AT_CODE,
    AT_COUNT,
    AT_TAKEN
};

typedef struct {
    mk_hub hub;
    uint8_t answers[ANSWERS_SIZE];
} proved_blocks;

static inline void proved_blocks_init(proved_blocks *machine)
{
    mk_hub_init(&machine->hub);
}

static inline mk_hub_told proved_blocks_event(proved_blocks *machine, uint32_t event)
{
    return mk_hub_event(&machine->hub, event);
}

typedef struct {
    uint32_t number;
    size_t answers, code, count, taken;
} proved_blocks_block_told;

static inline proved_blocks_block_told proved_blocks_block(proved_blocks *machine, const uint8_t *bytes, size_t size)
{
    mk_hub *hub = &machine->hub;
    size_t values[MK_BLOCK_VALUES];
    uint32_t number = mk_hub_hear_block(hub->control, sizeof hub->control, hub->line, hub->gather, machine->answers,
        sizeof machine->answers, hub->message, sizeof hub->message, bytes, size, values);
    return (proved_blocks_block_told){number, values[AT_ANSWERS], values[AT_CODE], values[AT_COUNT], values[AT_TAKEN]};
}

typedef struct {
    peer_hub hub;
    uint8_t answers[ANSWERS_SIZE];
} peer_blocks;

static inline void peer_blocks_init(peer_blocks *machine)
{
    peer_hub_init(&machine->hub);
}

static inline peer_hub_told peer_blocks_event(peer_blocks *machine, uint32_t event)
{
    return peer_hub_event(&machine->hub, event);
}

typedef peer_block_told peer_blocks_block_told;

static inline peer_block_told peer_blocks_block(peer_blocks *machine, const uint8_t *bytes, size_t size)
{
    return peer_hub_block(&machine->hub, bytes, size, machine->answers, sizeof machine->answers);
}

// Takes all, and tells nothing.
typedef peer_block_told none_block_told;

static inline peer_block_told none_block(none *machine, const uint8_t *bytes, size_t size)
{
    (void)machine;
    __asm__ volatile("" : : "r"(bytes));
    return (peer_block_told){.taken = (uint16_t)size};
}

// Bytes with no gap among them, and the gap behind them.
typedef struct {
    size_t size;
    uint32_t gap;
} part;

// All parts of a pass: each in one block, or in several where it is longer than one may be; what a call leaves is given
// again. Then its gap. Of what a block tells, a firmware looks at the number, at the answers, and at how many bytes it
// took.
#define PASS_OF_BLOCKS(NAME, MACHINE)                                                               \
    const size_t NAME##_size = sizeof(MACHINE);                                                     \
    size_t NAME(void *lent, const uint8_t *bytes, const part *parts, size_t count);                 \
    size_t NAME(void *lent, const uint8_t *bytes, const part *parts, size_t count)                  \
    {                                                                                               \
        MACHINE *machine = lent;                                                                    \
        size_t tally = 0;                                                                           \
        MACHINE##_init(machine);                                                                    \
        for (size_t i = 0; i < count; i++) {                                                        \
            size_t left = parts[i].size;                                                            \
            while (left != 0) {                                                                     \
                const size_t size = left < MK_BLOCK_SIZE ? left : MK_BLOCK_SIZE;                    \
                const MACHINE##_block_told told = MACHINE##_block(machine, bytes, size);            \
                if (told.number != 0 || told.answers != 0)                                          \
                    tally += heed_block(told.number, told.answers, told.code, told.count, told.taken); \
                bytes += told.taken;                                                                \
                left -= told.taken;                                                                 \
            }                                                                                       \
            const MACHINE##_told told = MACHINE##_event(machine, parts[i].gap);                     \
            if (told.number != 0)                                                                   \
                tally += HEED_HUB(told);                                                            \
        }                                                                                           \
        return tally;                                                                               \
    }

typedef mk_hub_told proved_blocks_told;
typedef peer_hub_told peer_blocks_told;

PASS_OF_BLOCKS(pass_proved_blocks, proved_blocks)
PASS_OF_BLOCKS(pass_peer_blocks, peer_blocks)
PASS_OF_BLOCKS(pass_none_blocks, none)
