/* One node of a ring over UDP on 127.0.0.1, with one connection, which is in the group `chat`.
 *
 *     ring [-l LOSS] [-s SEED] [-m MESSAGES] [-b BYTES] [-t SECONDS] [-w] NODE PORT..
 *
 * There is a port for each node of the ring, and this process is node NODE, from 1. It reads lines from standard input,
 * sends each as a message, and prints what its connection is told: a line for each message and each change of members.
 * A message is told to those who are members by then; with -w lines are sent once all nodes have a member.
 * LOSS of 100 packets are dropped before they are sent, as SEED has it. The program ends after SECONDS, or once it was
 * told MESSAGES messages and all nodes hold them. With -b it sends its share of MESSAGES messages of BYTES bytes by
 * itself, and says how fast they were told.
 *
 * What a program has to do for a node is all here: frames to all or to the next node, the timer after some silence,
 * deliveries, events. While nothing happens a token is held back for a while before it is heard, so that a ring at rest
 * leaves the processor alone; a line to send lets it go at once.
 */
#define _GNU_SOURCE
#include "cpgring.h"

#include <arpa/inet.h>
#include <fcntl.h>
#include <netinet/in.h>
#include <poll.h>
#include <stdio.h>
#include <stdlib.h>
#include <string.h>
#include <sys/socket.h>
#include <time.h>
#include <unistd.h>

/* Seconds. */
static const double SILENCE = 0.01, HOLD = 0.025, LINGER = 1.0;

/* How many tokens in a row brought nothing before the next is held back. */
enum { AT_REST = 12 };

static cpgring ring = CPGRING_INIT;
static unsigned node, nodes, loss;
static bool waits_for_all;
static uint16_t ports[CPGRING_MOST_NODES + 1], conn;
static uint64_t seed = 1;
static int wire;

static unsigned long told, wanted, bytes; /* messages */
static size_t members;
static uint32_t last_place;

static uint8_t held[256]; /* a token that waits to be heard */
static size_t held_len;
static unsigned quiet; /* tokens in a row that brought nothing */
static double held_since, heard, first_sent, last_told;

static double now(void) {
    struct timespec t;
    clock_gettime(CLOCK_MONOTONIC, &t);
    return (double)t.tv_sec + (double)t.tv_nsec * 1e-9;
}

static void fail(const char *what, uint32_t status) {
    fprintf(stderr, "node %u: %s: %s\n", node, what, cpgring_refusal_text(status));
    exit(1);
}

/* a number below 100 */
static unsigned chance(void) {
    seed ^= seed >> 12, seed ^= seed << 25, seed ^= seed >> 27;
    return (unsigned)((seed * UINT64_C(2685821657736338717)) >> 33) % 100;
}

static void post(unsigned to, const uint8_t *frame, size_t len) {
    struct sockaddr_in at = {0};
    at.sin_family = AF_INET, at.sin_port = htons(ports[to]), at.sin_addr.s_addr = htonl(INADDR_LOOPBACK);
    if (chance() >= loss) sendto(wire, frame, len, 0, (struct sockaddr *)&at, sizeof at);
}

/* Sends all that the node hands over. Whether there was a packet among it. */
static bool send_on(void) {
    static uint8_t frame[CPGRING_MOST_FRAME];
    size_t len;
    uint32_t route;
    bool packets = false;
    while (cpgring_next(&ring, frame, sizeof frame, &len, &route) == CPGRING_OK) {
        if (route == CPGRING_TO_NEXT) {
            post(node % nodes + 1, frame, len);
        } else {
            packets = true;
            for (unsigned k = 1; k <= nodes; k++)
                if (k != node) post(k, frame, len);
        }
    }
    return packets;
}

/* Hears a frame. Refusals are what a lossy wire brings: doubles, latecomers; the ring goes on. */
static void hear(const uint8_t *frame, size_t len, bool is_token) {
    uint32_t status = cpgring_frame(&ring, frame, len);
    if (status == CPGRING_MEMORY) fail("frame", status);
    if (status != CPGRING_OK) return;
    heard = now();
    bool packets = send_on();
    if (is_token) quiet = packets ? 0 : quiet + 1;
    else quiet = 0;
}

/* The third byte of a frame says what it is: 1 a packet, 2 a token. */
static bool is_token(const uint8_t *frame, size_t len) { return len > 2 && frame[2] == 2; }

static void let_go(void) {
    size_t len = held_len;
    held_len = 0;
    if (len > 0) hear(held, len, true);
}

/* Takes in what came over the wire; a token that comes while nothing happens is held back. */
static void receive(void) {
    static uint8_t frame[CPGRING_MOST_FRAME + 1];
    ssize_t len;
    for (int k = 0; k < 256 && (len = recv(wire, frame, sizeof frame, 0)) >= 0; k++) {
        if (is_token(frame, (size_t)len) && quiet >= AT_REST && (size_t)len <= sizeof held) {
            if (held_len == 0) held_since = now();
            memcpy(held, frame, (size_t)len);
            held_len = (size_t)len;
        } else {
            hear(frame, (size_t)len, is_token(frame, (size_t)len));
        }
    }
}

/* Puts a message in the node's queue; false where that is full. */
static bool say(const uint8_t *message, size_t len) {
    uint32_t status = cpgring_send(&ring, conn, message, len);
    if (status == CPGRING_QUEUE_FULL) return false;
    if (status != CPGRING_OK) fail("send", status);
    quiet = 0;
    let_go();
    return true;
}

/* Sends the lines of standard input, each once there is room for it. Whether there may be more to read. */
static bool read_lines(bool readable) {
    static char text[CPGRING_MOST_MESSAGE + 1];
    static size_t have;
    static bool more = true;
    if (waits_for_all && members < nodes) return false;
    if (readable && more && have < sizeof text) {
        ssize_t got = read(0, text + have, sizeof text - have);
        if (got == 0) more = false;
        if (got > 0) have += (size_t)got;
    }
    for (;;) {
        char *end = memchr(text, '\n', have);
        size_t len = end ? (size_t)(end - text) : have, used = end ? len + 1 : len;
        bool whole = end || have == sizeof text || (!more && have > 0);
        if (!whole || !say((uint8_t *)text, len < CPGRING_MOST_MESSAGE ? len : CPGRING_MOST_MESSAGE)) break;
        have -= used;
        memmove(text, text + used, have);
    }
    return more && have < sizeof text;
}

/* Sends this node's share of the bench's messages, as long as there is room. */
static void send_share(void) {
    static unsigned long sent;
    static uint8_t message[CPGRING_MOST_MESSAGE];
    if (bytes == 0 || members < nodes) return;
    if (sent == 0) first_sent = now();
    while (sent < wanted / nodes && say(message, bytes)) sent++;
}

static void print_event(const cpgring_event *event) {
    static uint8_t message[CPGRING_MOST_MESSAGE];
    cpgring_process process;
    last_place = event->place;
    if (event->kind == CPGRING_MESSAGE) {
        told++;
        last_told = now();
        if (bytes > 0) return;
        uint32_t status = cpgring_message(&ring, message, sizeof message);
        if (status != CPGRING_OK) fail("message", status);
        printf("%u message %u/%u %.*s\n", event->place, event->node, event->pid, (int)event->message_len, (char *)message);
    } else if (event->kind == CPGRING_CHANGE) {
        members = event->members;
        if (bytes > 0) return;
        printf("%u members", event->place);
        for (size_t k = 0; cpgring_member(&ring, k, &process) == CPGRING_OK; k++) printf(" %u/%u", process.node, process.pid);
        putchar('\n');
    } else if (event->kind == CPGRING_VERDICT && event->verdict != CPGRING_ALLOWED) {
        printf("%u denied\n", event->place);
    }
    fflush(stdout);
}

static void deliver_all(void) {
    uint32_t place, status;
    cpgring_event event;
    while ((status = cpgring_deliver(&ring, &place)) == CPGRING_OK)
        while (cpgring_take(&ring, conn, &event) == CPGRING_OK) print_event(&event);
    if (status != CPGRING_NONE) fail("deliver", status);
}

/* Sends the last token again after some silence: more of it while the ring is at rest. */
static void mind_silence(void) {
    double t = now(), bound = quiet >= AT_REST ? 2 * nodes * HOLD : SILENCE;
    if (held_len > 0 && (quiet < AT_REST || t - held_since >= HOLD)) let_go();
    if (held_len > 0 || t - heard < bound) return;
    uint32_t status = cpgring_timer(&ring);
    if (status != CPGRING_OK && status != CPGRING_NONE) fail("timer", status);
    send_on();
    heard = t;
}

/* Whether all that was wanted was told, and every node holds it; the others are left some time to learn that. */
static bool is_done(void) {
    static double since;
    uint32_t safe = 0;
    if (wanted == 0 || told < wanted) return false;
    cpgring_safe(&ring, &safe);
    if (since == 0) since = now();
    return now() - since > (safe >= last_place ? LINGER : 5 * LINGER);
}

static void begin(void) {
    cpgring_setup setup = {7, (uint8_t)nodes, (uint8_t)node, CPGRING_MOST_PLACES, CPGRING_MOST_HOPS};
    const uint32_t nobody[1] = {0};
    uint32_t status;
    struct sockaddr_in me = {0};
    int room = 4 << 20;
    me.sin_family = AF_INET, me.sin_port = htons(ports[node]), me.sin_addr.s_addr = htonl(INADDR_LOOPBACK);
    wire = socket(AF_INET, SOCK_DGRAM | SOCK_NONBLOCK, 0);
    if (wire < 0 || bind(wire, (struct sockaddr *)&me, sizeof me) != 0) perror("bind"), exit(1);
    setsockopt(wire, SOL_SOCKET, SO_RCVBUF, &room, sizeof room);
    fcntl(0, F_SETFL, fcntl(0, F_GETFL) | O_NONBLOCK);
    if ((status = cpgring_open(&ring, &setup, nobody, 0, nobody, 0))) fail("open", status);
    if ((status = cpgring_connect(&ring, (uint32_t)getpid(), 0, 0, &conn))) fail("connect", status);
    if ((status = cpgring_join(&ring, conn, (const uint8_t *)"chat", 4))) fail("join", status);
}

static void refuse_words(void) {
    fputs("usage: ring [-l LOSS] [-s SEED] [-m MESSAGES] [-b BYTES] [-t SECONDS] [-w] NODE PORT..\n", stderr);
    fputs("       (a port for each of 1 to 8 nodes, NODE from 1; such a process for each node makes a ring)\n", stderr);
    exit(2);
}

static double read_words(int count, char **words) {
    double seconds = 1e9;
    int option;
    while ((option = getopt(count, words, "l:s:m:b:t:w")) != -1) switch (option) {
        case 'l': loss = (unsigned)strtoul(optarg, NULL, 10); break;
        case 's': seed = 2 * strtoull(optarg, NULL, 10) + 1; break;
        case 'm': wanted = strtoul(optarg, NULL, 10); break;
        case 'b': bytes = strtoul(optarg, NULL, 10); break;
        case 't': seconds = strtod(optarg, NULL); break;
        case 'w': waits_for_all = true; break;
        default: refuse_words();
        }
    nodes = (unsigned)(count - optind - 1);
    if (count - optind < 2 || nodes > CPGRING_MOST_NODES || bytes > CPGRING_MOST_MESSAGE) refuse_words();
    node = (unsigned)strtoul(words[optind], NULL, 10);
    if (node < 1 || node > nodes) refuse_words();
    for (unsigned k = 1; k <= nodes; k++) ports[k] = (uint16_t)strtoul(words[optind + (int)k], NULL, 10);
    seed += UINT64_C(1000003) * node;
    return seconds;
}

int main(int count, char **words) {
    double end = now() + read_words(count, words);
    bool reads = true;
    begin();
    while (now() < end && !is_done()) {
        struct pollfd waits[2] = {{wire, POLLIN, 0}, {0, POLLIN, 0}};
        int most = quiet >= AT_REST ? (int)(HOLD * 1000) : 2;
        waits[1].fd = reads ? 0 : -1;
        poll(waits, 2, most);
        if (bytes == 0) reads = read_lines(waits[1].revents != 0);
        send_share();
        receive();
        mind_silence();
        deliver_all();
    }
    if (bytes > 0) printf("%lu told, %.0f a second\n", told, (double)told / (last_told - first_sent));
    uint32_t status = cpgring_close(&ring);
    if (status != CPGRING_OK) fail("close", status);
    return told < wanted;
}
