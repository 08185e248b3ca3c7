// The plain sum of bytes that the bars of blocks are held against: one byte after the other, as a C compiler does it at
// -O2 that uses no vector instructions (build.rs).
#include <stddef.h>
#include <stdint.h>

uint16_t plain_sum(const uint8_t *bytes, size_t count);
uint16_t plain_sum(const uint8_t *bytes, size_t count)
{
    uint16_t total = 0;
    for (size_t i = 0; i < count; i++) {
        total += bytes[i];
    }
    return total;
}
