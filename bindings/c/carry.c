// A set carried from one reader to nine. A lab sets up one reader by commands of its host, locks two parameters, and
// gives the set to nine readers more. Each keeps it in its flash, so all ten are alike whenever they are switched on.
#include <stdio.h>
#include <stdlib.h>
#include <string.h>

#include "motikhund.h"

enum { READERS = 10, LOCKS = 20 }; // behind the nine pairs of a form: how many are locked, and which

// What outlasts power-off. Blank flash is FFh everywhere.
typedef struct {
    uint8_t size;
    uint8_t form[MK_SET_SIZE];
} flash;

static mk_reader readers[READERS];
static flash kept[READERS];

// ---- a reader's firmware

// Blank flash holds no set, and the house defaults stay.
static bool switch_on(mk_reader *reader, const flash *from)
{
    size_t size = from->size <= MK_SET_SIZE ? from->size : 0;
    mk_reader_init(reader);
    return mk_reader_load(reader->control, sizeof reader->control, from->form, size) == MK_NOTHING;
}

// A form has no checksum: where the power may fail in the middle of this, flash has two places, each with a checksum.
static void keep(const mk_reader *reader, flash *to)
{
    size_t size;
    mk_reader_save(reader->control, sizeof reader->control, to->form, sizeof to->form, &size);
    to->size = (uint8_t)size;
}

// What it brought. A whole firmware sends reader->answer first: keeping is slow, and the host waits.
static uint32_t hears(mk_reader *reader, flash *to, uint32_t event)
{
    mk_reader_told told = mk_reader_event(reader, event);
    if (told.permanent)
        keep(reader, to);
    return told.number;
}

// A set from another reader. Bytes that are not a form are MK_FORM, and then nothing has changed.
static uint32_t take_over(mk_reader *reader, flash *to, const uint8_t *form, size_t size)
{
    uint32_t number = mk_reader_load(reader->control, sizeof reader->control, form, size);
    if (number == MK_NOTHING)
        keep(reader, to);
    return number;
}

// ---- the lab

static void demand(bool truth, const char *what)
{
    if (truth)
        return;
    fprintf(stderr, "not so: %s\n", what);
    exit(1);
}

// A command of the host, and what the reader told of it.
static uint32_t command(size_t which, uint8_t opcode, uint8_t status, const uint8_t *data, size_t count)
{
    uint8_t packet[MK_PACKET_SIZE];
    size_t size;
    uint32_t number = MK_NOTHING;
    mk_build(packet, sizeof packet, opcode, MK_SOURCE_HOST, status, data, count, &size);
    for (size_t i = 0; i < size; i++)
        number = hears(&readers[which], &kept[which], packet[i]);
    hears(&readers[which], &kept[which], MK_CHARACTER_GAP);
    return number;
}

static void show(size_t which, const char *what)
{
    printf("reader %zu: %s\n ", which + 1, what);
    for (size_t i = 0; i < kept[which].size; i++)
        printf(" %02X", kept[which].form[i]);
    putchar('\n');
}

// For ever: the host triggers, half a second of aim pattern.
static void set_up(size_t which)
{
    static const uint8_t data[] = {0xFF, MK_PARAMETER_TRIGGER, MK_TRIGGER_HOST, MK_PARAMETER_AIM_DURATION, 5};
    uint32_t number = command(which, MK_OPCODE_PARAM_SEND, MK_STATUS_PERMANENT, data, sizeof data);
    demand(number == MK_ACTED, "the host's values are taken");
    show(which, "set up by its host, kept in flash");
}

// Locks come from a set here: they are written behind its values, and the reader that they are for reads it again.
static void lock(size_t which)
{
    static const uint8_t locked[] = {MK_PARAMETER_TRIGGER, MK_PARAMETER_BAUD}; // rising
    uint8_t form[MK_SET_SIZE];
    memcpy(form, kept[which].form, LOCKS);
    form[LOCKS] = sizeof locked;
    memcpy(form + LOCKS + 1, locked, sizeof locked);
    uint32_t number = take_over(&readers[which], &kept[which], form, LOCKS + 1 + sizeof locked);
    demand(number == MK_NOTHING, "the locks are taken");
    show(which, "trigger and baud rate locked");
}

static void carry_to(size_t which, const flash *set)
{
    demand(!switch_on(&readers[which], &kept[which]), "its flash is blank");
    demand(take_over(&readers[which], &kept[which], set->form, set->size - 1u) == MK_FORM, "a cut form is refused");
    demand(take_over(&readers[which], &kept[which], set->form, set->size) == MK_NOTHING, "the set is taken");
    printf("reader %zu: the set taken, %s\n", which + 1,
        memcmp(&kept[which], set, sizeof *set) == 0 ? "and kept byte for byte" : "but another one kept");
}

// Switched off and on again, then commanded.
static void use(size_t which)
{
    static const uint8_t data[] = {0xFF, MK_PARAMETER_TRIGGER, MK_TRIGGER_LEVEL};
    demand(switch_on(&readers[which], &kept[which]), "its flash holds the set");
    printf("reader %zu: switched on, trigger %d, aim duration %d\n", which + 1,
        mk_reader_parameter(&readers[which], MK_PARAMETER_TRIGGER),
        mk_reader_parameter(&readers[which], MK_PARAMETER_AIM_DURATION));
    printf("reader %zu: a PARAM_SEND for the trigger is refusal %u\n", which + 1,
        (unsigned)command(which, MK_OPCODE_PARAM_SEND, MK_STATUS_PERMANENT, data, sizeof data));
    demand(command(which, MK_OPCODE_PARAM_DEFAULTS, 0, data, 0) == MK_ACTED, "the defaults are taken");
    show(which, "defaults, but for what is locked; kept in flash");
}

int main(void)
{
    memset(kept, 0xFF, sizeof kept);
    demand(!switch_on(&readers[0], &kept[0]), "its flash is blank");
    set_up(0);
    lock(0);
    for (size_t which = 1; which < READERS; which++)
        carry_to(which, &kept[0]);
    use(READERS - 1);
    return 0;
}
