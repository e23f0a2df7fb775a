/* What a transfer cannot do without, in plain C: each octet copied once a sending, each section summed by both
   sides once a sending, the whole file summed once by both sides. */
#include <stddef.h>
#include <stdint.h>
#include <string.h>

uint8_t floor_sum(const uint8_t *octets, size_t length) {
    uint8_t sum = 0;
    for (size_t i = 0; i < length; i++) {
        sum += octets[i];
    }
    return sum;
}

static size_t least(size_t a, size_t b) {
    return a < b ? a : b;
}

uint8_t floor_transfer(const uint8_t *file, size_t length, uint8_t *store, size_t section, size_t segment,
                       size_t sendings) {
    uint8_t sum = 0;
    for (size_t from = 0; from < length; from += section) {
        size_t octets = least(section, length - from);
        for (size_t sending = 0; sending < sendings; sending++) {
            sum += floor_sum(file + from, octets);
            for (size_t at = 0; at < octets; at += segment) {
                memcpy(store + from + at, file + from + at, least(segment, octets - at));
            }
            sum += floor_sum(store + from, octets);
        }
    }
    return sum + floor_sum(file, length) + floor_sum(store, length);
}
