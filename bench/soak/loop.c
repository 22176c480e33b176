/* Plays a loop of pictures, as a screen in a shop does: loop HOURS SECONDS.
 *
 * HOURS of document time in steps of a tenth of a second, and at least SECONDS of real time in all, with rests
 * between the steps. After each hour the presentation is saved, loaded anew and the old one closed, as a player does
 * that goes on for months: then the library holds the same memory each time, and within an hour it takes what the
 * diary takes. Ends with 1 where that isn't so. */
#define _DEFAULT_SOURCE
#include "heap.h"
#include "tenphsar.h"
#include <stdio.h>
#include <stdlib.h>
#include <string.h>
#include <time.h>
#include <unistd.h>

enum { STEPS = 36000, ANSWER = 1 << 16, MOST_IN_AN_HOUR = 1 << 20 };
static const char *const LOOP[] = {
    "load a", "seq id=\"loop\" repeatCount=\"indefinite\"", "  img id=\"first\" dur=\"5s\"", "  par id=\"both\" dur=\"5s\"",
    "    img id=\"second\" dur=\"5s\"", "    text id=\"caption\" begin=\"second.begin+1s\" dur=\"3s\"", "%%",
};

/* Gives a line, and ends where it is refused. */
static void give(tenphsar *session, const char *line) {
    if (tenphsar_line(session, line, strlen(line)) < 0 || tenphsar_size(session) == 0) return;
    char first[64];
    size_t len = tenphsar_answer(session, 0, first, sizeof first);
    if (first[0] == '!') {
        printf("%s: %.*s", line, (int)len, first);
        exit(1);
    }
}

/* How much memory the process has, in kilobytes. */
static long resident(void) {
    long pages = 0, held = 0;
    FILE *in = fopen("/proc/self/statm", "r");
    if (in && fscanf(in, "%ld %ld", &pages, &held) != 2) held = 0;
    if (in) fclose(in);
    return held * (sysconf(_SC_PAGESIZE) / 1024);
}

/* An hour of document time, with so many microseconds of rest between two steps. */
static void hour(tenphsar *session, char name, useconds_t rest) {
    char line[32];
    snprintf(line, sizeof line, "%c advance 100ms", name);
    for (int step = 0; step < STEPS; step++) {
        give(session, line);
        if (rest) usleep(rest);
    }
}

/* Loads what a presentation has under another name, and closes it. */
static void renew(tenphsar *session, char from, char to) {
    static char answer[ANSWER];
    char line[32];
    snprintf(line, sizeof line, "%c save", from);
    give(session, line);
    size_t len = tenphsar_answer(session, 0, answer, sizeof answer - 1);
    answer[len] = 0;
    snprintf(line, sizeof line, "load %c", to);
    give(session, line);
    for (char *each = strtok(answer, "\n"); each && memcmp(each, "ok ", 3); each = strtok(NULL, "\n"))
        give(session, each);
    give(session, "%%");
    snprintf(line, sizeof line, "close %c", from);
    give(session, line);
}

int main(int words, char **word) {
    long hours = words == 3 ? atol(word[1]) : 0, seconds = words == 3 ? atol(word[2]) : 0;
    if (hours < 1) return 2;
    tenphsar session;
    if (tenphsar_open(&session) != TENPHSAR_DONE) return 2;
    for (size_t at = 0; at < sizeof LOOP / sizeof *LOOP; at++) give(&session, LOOP[at]);
    useconds_t rest = (useconds_t)(seconds * 1e6 / ((double)hours * STEPS));
    size_t renewed = 0;
    int status = 0;
    for (long at = 0; at < hours; at++) {
        char name = at % 2 ? 'b' : 'a', other = at % 2 ? 'a' : 'b';
        size_t before = soak_bytes();
        hour(&session, name, rest);
        size_t after = soak_bytes();
        renew(&session, name, other);
        printf("hour %ld: %zu bytes, %zu at its end, %zu when it was renewed, %ld kB resident\n", at + 1, before, after,
               soak_bytes(), resident());
        fflush(stdout);
        if (after > before + MOST_IN_AN_HOUR || (at > 1 && soak_bytes() != renewed)) status = 1;
        renewed = soak_bytes();
    }
    tenphsar_close(&session);
    return soak_blocks() ? 1 : status;
}
