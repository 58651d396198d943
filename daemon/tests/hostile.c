/* hostile COUNT SEED: COUNT connections send bytes that are no asks, or asks cut, mixed and too long.
 * Each is ended by the daemon or left to its own end; what it did to others is seen by the test that runs beside.
 * At last a client of the library greets: the daemon is there. */
#include "common.h"

static uint64_t state;

static uint32_t draw(uint32_t below) {
    state ^= state << 13;
    state ^= state >> 7;
    state ^= state << 17;
    return (uint32_t)(state % below);
}

static size_t put_frame(uint8_t *to, uint16_t kind, uint32_t len, uint32_t said) {
    struct head head = {said, kind, (uint16_t)draw(65536)};
    memcpy(to, &head, sizeof head);
    for (uint32_t k = 0; k < len; k++) to[sizeof head + k] = (uint8_t)draw(256);
    return sizeof head + len;
}

/* Bytes of one kind of hostility. */
static size_t put_bytes(uint8_t *to, unsigned way) {
    size_t len = 0, noise = 1 + draw(4000);
    switch (way) {
    case 0: /* noise */
        for (len = 0; len < noise; len++) to[len] = (uint8_t)draw(256);
        return len;
    case 1: return put_frame(to, (uint16_t)draw(16), 0, MOST_ASK + 1 + draw(100000)); /* too long */
    case 2: return put_frame(to, ASK_SEND, draw(100), 8000);                             /* never whole */
    case 3: return put_frame(to, (uint16_t)(16 + draw(60000)), 4, 4);                    /* no kind */
    default:                                                                             /* asks of every kind with noise in them */
        for (unsigned k = 0; k < 30; k++) {
            uint32_t size = draw(4) ? draw(160) : draw(3000);
            len += put_frame(to + len, (uint16_t)(2 + draw(8)), size, size);
        }
        return len;
    }
}

static void be_hostile(unsigned number) {
    static uint8_t bytes[1 << 20];
    int fd = raw_dial();
    EXPECT(fd >= 0, 1);
    if (fd < 0) return;
    unsigned way = number % 5;
    bool greets = number % 2 || way >= 3;
    if (greets) EXPECT(raw_greet(fd), CS_OK);
    size_t len = put_bytes(bytes, way);
    if (send(fd, bytes, len, MSG_NOSIGNAL) < 0) EXPECT(errno == EPIPE || errno == ECONNRESET, 1);
    if (way == 1 || way == 3) EXPECT(raw_is_ended(fd, 60000), 1);
    if (number % 3 == 0) shutdown(fd, SHUT_WR);
    close(fd);
}

int main(int count, char **words) {
    if (count != 3) return 2;
    raise_descriptors();
    state = (uint64_t)atoll(words[2]) * 2654435761u + 1;
    for (unsigned k = 0; k < (unsigned)atoi(words[1]); k++) be_hostile(k);
    cpg_handle_t h;
    EXPECT(cpg_initialize(&h, NULL), CS_OK);
    EXPECT(cpg_finalize(h), CS_OK);
    return finish("hostile");
}
