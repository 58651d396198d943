/* fuzz_play FOLDER: plays each file of a corpus, and then thousands of inputs that a fixed seed makes of asks.
 * It is what daemon/check runs in place of a fuzzer; a fault ends it by abort, and the sanitizers watch. */
#include "../protocol.h"
#include "../server/log.h"
#include <dirent.h>
#include <stdio.h>
#include <stdlib.h>
#include <string.h>

enum { INPUTS = 5000, MOST_INPUT = 16384 };

int LLVMFuzzerTestOneInput(const uint8_t *data, size_t size);

static uint64_t state = 88172645463325252u;

static uint32_t draw(uint32_t below) {
    state ^= state << 13;
    state ^= state >> 7;
    state ^= state << 17;
    return (uint32_t)(state % below);
}

/* Parts of frames of every kind, mostly well made, in the shape that the entry reads. */
static size_t make_input(uint8_t *to) {
    static const char *const words[] = {"status", "clients", "audit all", "audit 3-9", "members honest", "rules a", "hold 1", "renew"};
    size_t len = 0;
    for (unsigned parts = 1 + draw(30); parts > 0 && len + 600 < MOST_INPUT; parts--) {
        uint8_t frame[400];
        struct head head = {draw(8) ? draw(200) : draw(100000), (uint16_t)draw(11), (uint16_t)draw(4)};
        uint32_t body = head.len < 240 ? head.len : draw(240);
        memcpy(frame, &head, sizeof head);
        for (uint32_t k = 0; k < body; k++) frame[sizeof head + k] = (uint8_t)(draw(3) ? 'a' + draw(3) : draw(256));
        if (head.kind == ASK_CONTROL) {
            const char *word = words[draw(sizeof words / sizeof *words)];
            head.len = body = (uint32_t)strlen(word);
            memcpy(frame, &head, sizeof head);
            memcpy(frame + sizeof head, word, body);
        }
        to[len++] = (uint8_t)(draw(20) ? draw(64) : 0xF0 + draw(16));
        to[len++] = (uint8_t)(sizeof head + body);
        memcpy(to + len, frame, sizeof head + body);
        len += sizeof head + body;
    }
    return len;
}

static unsigned play_folder(const char *folder) {
    static uint8_t bytes[1 << 20];
    struct dirent *entry;
    unsigned files = 0;
    DIR *dir = opendir(folder);
    while (dir && (entry = readdir(dir))) {
        char path[4096];
        if (entry->d_name[0] == '.') continue;
        snprintf(path, sizeof path, "%s/%s", folder, entry->d_name);
        FILE *file = fopen(path, "rb");
        size_t len = file ? fread(bytes, 1, sizeof bytes, file) : 0;
        if (file) fclose(file);
        LLVMFuzzerTestOneInput(bytes, len);
        files++;
    }
    if (dir) closedir(dir);
    return files;
}

int main(int count, char **words) {
    static uint8_t bytes[MOST_INPUT];
    log_up_to(LOG_ERROR);
    unsigned files = count > 1 ? play_folder(words[1]) : 0;
    for (unsigned k = 0; k < INPUTS; k++) LLVMFuzzerTestOneInput(bytes, make_input(bytes));
    printf("fuzz_play: %u files and %d made inputs\n", files, (int)INPUTS);
    return count > 1 && files == 0;
}
