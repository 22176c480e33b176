/* Plays a session line by line, as `smilplay run` does: play < SESSION. The exit number is 0, or 1 where an order was
 * refused, 3 or 4 where reading or writing failed, 5 where there was no memory to begin with, 6 past the last line. */
#include "tenphsar.h"
#include <stdio.h>
#include <stdlib.h>
#include <sys/types.h>

/* Writes the answer to the last line, and gives the exit number that it calls for. */
static int write_answer(tenphsar *session) {
    char piece[4096];
    size_t from = 0, len;
    while ((len = tenphsar_answer(session, from, piece, sizeof piece)) > 0) {
        if (fwrite(piece, 1, len, stdout) < len) return 4;
        from += len;
    }
    return 0;
}

/* Gives a line to the session, and gives the exit number that it calls for. */
static int take_line(tenphsar *session, char *line, size_t len) {
    if (len > 0 && line[len - 1] == '\n') len--;
    if (len > 0 && line[len - 1] == '\r') len--;
    int code = tenphsar_line(session, line, len);
    if (code < 0) return 6;
    int written = write_answer(session);
    return written ? written : code == TENPHSAR_REFUSED;
}

int main(void) {
    tenphsar session;
    if (tenphsar_open(&session) != TENPHSAR_DONE) return 5;
    char *line = NULL;
    size_t room = 0;
    ssize_t len;
    int status = 0;
    while (status < 2 && (len = getline(&line, &room, stdin)) >= 0) {
        int next = take_line(&session, line, (size_t)len);
        if (next > status) status = next;
    }
    if (status < 2 && ferror(stdin)) status = 3;
    if (fflush(stdout) && status < 2) status = 4;
    tenphsar_close(&session);
    free(line);
    return status;
}
