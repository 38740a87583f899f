/* The check of a message alone, by zlib: of bytes that come, and of bytes that are made. */
#include <stdint.h>
#include <zlib.h>

/* Whether bytes 8 to 11 are the check of bytes 0 to 7, low byte first. */
uint64_t zlib_check_is_right(const uint8_t *bytes) {
    uint32_t check = crc32(0, bytes, 8);
    uint32_t found = bytes[8] | bytes[9] << 8 | bytes[10] << 16 | (uint32_t)bytes[11] << 24;
    return check == found;
}

/* Puts the check of bytes 0 to 7 into bytes 8 to 11, low byte first. */
void zlib_put_check(uint8_t *bytes) {
    uint32_t check = crc32(0, bytes, 8);
    bytes[8] = check;
    bytes[9] = check >> 8;
    bytes[10] = check >> 16;
    bytes[11] = check >> 24;
}
