/* Judges each FILE: a line with the object that `tor check --json` prints, or with the number of the refusal. */
#include <plovercasket.h>
#include <stdio.h>
#include <stdlib.h>

static void judge(const uint8_t *torrent, size_t length) {
    plover_outcome outcome = {.length = length + 1024};
    uint8_t *report = NULL;
    uint32_t answer;
    do {
        report = realloc(report, outcome.length);
        if (report == NULL) exit(4);
        answer = plover_check(torrent, length, report, outcome.length, &outcome);
    } while (answer == PLOVER_NO_ROOM);
    if (answer == PLOVER_OK) printf("%.*s\n", (int)outcome.length, (char *)report);
    else if (answer == PLOVER_BENCODE) printf("V1 B%u at %zu\n", outcome.fault, outcome.offset);
    else printf("V%u\n", answer);
    free(report);
}

int main(int count, char **words) {
    static uint8_t torrent[1 << 24];
    for (int i = 1; i < count; i++) {
        FILE *file = fopen(words[i], "rb");
        if (file == NULL) return 3;
        judge(torrent, fread(torrent, 1, sizeof torrent, file));
        fclose(file);
    }
    return 0;
}
