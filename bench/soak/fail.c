/* Plays sessions with each allocation failing in turn, and compares: fail EVERY SESSION..
 *
 * Each session is played from nothing, once with all memory and then with the first, the EVERYth, the 2 EVERYth ..
 * call for memory failing. An order that is answered `memory` is given once more; all answers must be those of the
 * first time, but for the numbers of lines, and at the end all memory must be given back. Ends with 1 and a line at
 * the first difference. */
#include "heap.h"
#include "tenphsar.h"
#include <stdio.h>
#include <stdlib.h>
#include <string.h>

/* A text that grows. */
struct text {
    char *at;
    size_t len, room;
};

static void add(struct text *text, const char *more, size_t len) {
    if (text->len + len > text->room) {
        text->room = 2 * (text->len + len);
        text->at = realloc(text->at, text->room);
        if (!text->at) exit(2);
    }
    memcpy(text->at + text->len, more, len);
    text->len += len;
}

static struct text file(const char *name) {
    struct text whole = {0};
    char piece[4096];
    size_t len;
    FILE *in = fopen(name, "rb");
    if (!in) exit(2);
    while ((len = fread(piece, 1, sizeof piece, in)) > 0) add(&whole, piece, len);
    fclose(in);
    return whole;
}

/* The line from a place on, without its end, and where the next one begins. */
static size_t line_at(const struct text *text, size_t from, size_t *next) {
    const char *end = memchr(text->at + from, '\n', text->len - from);
    size_t stop = end ? (size_t)(end - text->at) : text->len;
    *next = end ? stop + 1 : stop;
    return stop > from && text->at[stop - 1] == '\r' ? stop - 1 - from : stop - from;
}

/* Whether an answer is the refusal for want of memory. */
static int lacks_memory(const char *answer, size_t len) {
    return len > 9 && answer[0] == '!' && memcmp(answer + len - 8, " memory\n", 8) == 0;
}

/* Adds an answer, whose last line has the number of a line behind its first word: that is left out. */
static void add_answer(struct text *told, const char *answer, size_t len) {
    size_t last = len;
    while (last > 0 && (last == len || answer[last - 1] != '\n')) last--;
    size_t word = last;
    while (word < len && answer[word] != ' ') word++;
    size_t number = word + 1;
    while (number < len && answer[number] >= '0' && answer[number] <= '9') number++;
    add(told, answer, word);
    if (number < len) add(told, answer + number, len - number);
}

/* Plays a session, and adds its answers; gives 0 where there was no memory to open it. */
static int play(const struct text *lines, struct text *told) {
    static char answer[1 << 20];
    tenphsar session;
    if (tenphsar_open(&session) != TENPHSAR_DONE) return 0;
    size_t order = 0, next;
    for (size_t from = 0; from < lines->len; from = next) {
        size_t len = line_at(lines, from, &next);
        int code = tenphsar_line(&session, lines->at + from, len);
        size_t size = tenphsar_answer(&session, 0, answer, sizeof answer);
        if (size != tenphsar_size(&session)) exit(2);
        if (lacks_memory(answer, size)) {
            next = order; /* once more */
            continue;
        }
        if (size) add_answer(told, answer, size);
        if (code != TENPHSAR_DONE) order = next;
    }
    tenphsar_close(&session);
    return 1;
}

/* Plays a session with each EVERYth allocation failing, and gives how often, or -1 where something differs. */
static long try(const char *name, unsigned long every) {
    struct text lines = file(name), first = {0};
    soak_fail_at(0);
    play(&lines, &first);
    unsigned long calls = soak_calls();
    long tried = 0;
    for (unsigned long number = 1; number <= calls; number += every, tried++) {
        struct text told = {0};
        soak_fail_at(number);
        int is_open = play(&lines, &told);
        int is_same = told.len == first.len && (told.len == 0 || !memcmp(told.at, first.at, first.len));
        free(told.at);
        if ((is_open && !is_same) || soak_blocks() != 0) {
            printf("%s: allocation %lu: %s\n", name, number, soak_blocks() ? "memory is kept" : "another transcript");
            return -1;
        }
    }
    free(lines.at);
    free(first.at);
    return tried;
}

int main(int words, char **word) {
    long all = 0;
    if (words < 3) return 2;
    for (int at = 2; at < words; at++) {
        long tried = try(word[at], strtoul(word[1], NULL, 10));
        if (tried < 0) return 1;
        all += tried;
    }
    printf("%d sessions, %ld failing allocations\n", words - 2, all);
    return 0;
}
