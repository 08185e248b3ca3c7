// A firmware that uses a hub and nothing else: with -DPROVED the library's, with -DPEER the peer's, else none. What one
// has more of code than the last is what its hub costs (speed/run).
#if defined PROVED
#include "motikhund.h"
#elif defined PEER
#include "peer/peer.h"
#define MK_MESSAGE PEER_MESSAGE
#define mk_hub peer_hub
#define mk_hub_told peer_hub_told
#define mk_hub_init peer_hub_init
#define mk_hub_event peer_hub_event
#else
#include <stddef.h>
#include <stdint.h>
#define NONE
#endif

// The serial port.
volatile uint32_t heard;
volatile uint8_t sent;

static void send(const uint8_t *bytes, size_t count)
{
    for (size_t i = 0; i < count; i++) {
        sent = bytes[i];
    }
}

#ifdef NONE
static uint8_t echo[1];

static void setup(void)
{
    echo[0] = 0;
}

static void hear(uint32_t event)
{
    echo[0] = (uint8_t)event;
    send(echo, event >> 8);
}
#else
static mk_hub hub;

static void setup(void)
{
    mk_hub_init(&hub);
}

static void hear(uint32_t event)
{
    mk_hub_told told = mk_hub_event(&hub, event);
    send(hub.answer, told.answer);
    if (told.number == MK_MESSAGE) {
        sent = told.code;
        send(hub.message, told.count);
    }
}
#endif

int main(void)
{
    setup();
    for (;;) {
        hear(heard);
    }
}
