/* Tenphsar: a timing engine for SMIL 3.0 presentations, for programs in C.
 *
 * A session holds up to 64 presentations, each under its name. It is given lines, as docs/SCRIPT.md has them, and
 * answers each order by lines of text, as `smilplay run` does. Orders that move a presentation on can be given by calls
 * too, and what they change is told by records: no text is written or read then. Nothing is global: sessions know
 * nothing of each other.
 *
 * The caller's duty: `session` points to a session that is open, except for tenphsar_open; a text points to as many
 * bytes as its length says, or is of length 0 (then too it is not NULL); no text overlaps the session or another text.
 * No call tests this.
 *
 * Threads: one call at a time on a session, on the thread that opened it. Two sessions may be used on two threads at
 * the same time. No call waits, starts a thread, reads a clock, or reads or writes a file.
 *
 * Memory: the library takes it by malloc, through heap.c. Where it runs out an order is refused as `memory`, and all
 * presentations are as before.
 */
#ifndef TENPHSAR_H
#define TENPHSAR_H

#include <stddef.h>
#include <stdint.h>

#ifdef __cplusplus
extern "C" {
#endif

/* A session. Its field is the library's: neither read, write nor copy it. */
typedef struct tenphsar {
    void *at;
} tenphsar;

/* What tenphsar_open and tenphsar_line answer. */
enum {
    TENPHSAR_DONE = 0,     /* all went well; a line has no answer: it is blank, a comment, or in a load that goes on */
    TENPHSAR_ACCEPTED = 1, /* the line's order was accepted */
    TENPHSAR_REFUSED = 2,  /* it was refused, and all presentations are as before; the answer is the line `! ..` */
    TENPHSAR_MEMORY = -1,  /* there is no memory to open a session */
    TENPHSAR_LINES = -2    /* the session has had 4,294,967,295 lines: it takes no more, and all is as before */
};

/* Opens a session with no presentation: TENPHSAR_DONE, or TENPHSAR_MEMORY, and then it is not open and nothing is to be
 * closed. `session` needs no value before; one that is open would be forgotten, and its memory lost. */
int32_t tenphsar_open(tenphsar *session);

/* Takes in a line of `len` bytes, without its line feed; any bytes may stand in it. One of more than 16,384 bytes is
 * refused. Gives TENPHSAR_DONE, TENPHSAR_ACCEPTED, TENPHSAR_REFUSED or TENPHSAR_LINES. The answer stands until the next
 * line; after TENPHSAR_LINES it is that of the line before. Lines are counted from 1, and a refusal names its line. */
int32_t tenphsar_line(tenphsar *session, const char *line, size_t len);

/* How many bytes the answer to the last line has: 0 before the first line, and after TENPHSAR_DONE. */
size_t tenphsar_size(tenphsar *session);

/* Copies the answer to the last line to `out`, from its byte `from` on, at most `room` bytes, and gives how many were
 * copied: 0 where `from` is at its end or past it. Whole lines end in a line feed; no zero byte is put behind them, and
 * the rest of `out` stays as it was. */
size_t tenphsar_answer(tenphsar *session, size_t from, char *out, size_t room);

/* The present moment of the presentation of this name, in milliseconds of document time; -1 where there is none. */
int64_t tenphsar_moment(tenphsar *session, const char *name, size_t len);

/* The moment of document time, in milliseconds, at which something comes next in the presentation of this name, if no
 * order comes before: until then no change is told, and a player may sleep. It is later than the present moment. -1 where
 * nothing comes, or there is no such presentation. */
int64_t tenphsar_next(tenphsar *session, const char *name, size_t len);

/* ---- Orders by calls
 *
 * An order that is given by a call does what a line that says it does, and counts as a line. The presentation is that
 * of the name, `len` bytes long; an element is named by its serial, as `save` tells it: nodes are numbered from 1 in
 * the order in which they come in. Lengths and moments are in milliseconds, from 0 to 1,000,000,000,000. An answer is
 *
 *     0              the order was carried out
 *     1 to 27        it is refused, by the number of the refusal, and all presentations are as before
 *     below 0        nothing was taken in, and all is as before
 *
 * The answer to the last line stays. */
enum {
    TENPHSAR_BAD_ARGUMENT = -3, /* a number out of range, or a text or a key that no line can say */
    TENPHSAR_OPEN_LOAD = -4     /* a load that was begun by lines hasn't ended */
};

/* The refusals that orders by calls answer; docs/REFUSALS.md says of each word when it comes. */
enum {
    TENPHSAR_LONG_LINE = 1,           /* long-line */
    TENPHSAR_NOT_A_COMMAND = 2,       /* not-a-command */
    TENPHSAR_BAD_OUTLINE = 4,         /* bad-outline */
    TENPHSAR_DEPTH_JUMP = 5,          /* depth-jump */
    TENPHSAR_TOO_DEEP = 6,            /* too-deep */
    TENPHSAR_BAD_PLACE = 7,           /* bad-place */
    TENPHSAR_UNKNOWN_ATTRIBUTE = 8,   /* unknown-attribute */
    TENPHSAR_UNSUPPORTED = 9,         /* unsupported */
    TENPHSAR_BAD_VALUE = 10,          /* bad-value */
    TENPHSAR_TOO_MANY_ITEMS = 11,     /* too-many-items */
    TENPHSAR_DUPLICATE_ID = 12,       /* duplicate-id */
    TENPHSAR_TOO_MANY_ELEMENTS = 13,  /* too-many-elements */
    TENPHSAR_TOO_MANY_REFERENCES = 14, /* too-many-references */
    TENPHSAR_NO_PRESENTATION = 15,    /* no-presentation */
    TENPHSAR_NAME_TAKEN = 16,         /* name-taken */
    TENPHSAR_TOO_MANY_PRESENTATIONS = 17, /* too-many-presentations */
    TENPHSAR_NO_ELEMENT = 18,         /* no-element */
    TENPHSAR_ROOT = 19,               /* root */
    TENPHSAR_NOT_CONTINUOUS = 20,     /* not-continuous */
    TENPHSAR_LOG_FULL = 21,           /* log-full */
    TENPHSAR_BEYOND_HORIZON = 22,     /* beyond-horizon */
    TENPHSAR_DIARY_FULL = 23,         /* diary-full */
    TENPHSAR_NO_MEMORY = 24,          /* memory */
    TENPHSAR_NOT_YET = 25,            /* not-yet */
    TENPHSAR_BAD_SERIAL = 26,         /* bad-serial */
    TENPHSAR_NO_ANCHOR = 27           /* no-anchor */
};

/* Loads a presentation under the name, from an outline: what stands between its line feeds are the lines of the load.
 * It counts as `load NAME`, these lines, and `%%`; where `start_len` isn't 0 the first line is `load NAME at START`,
 * and START is the instant of moment 0. A name or an instant that no line can say is refused as not-a-command, and a
 * line `%%` in the outline as a node that there isn't. The records are what is told of the loaded presentation.
 * TENPHSAR_BAD_ARGUMENT where the first line is longer than 16,384 bytes; TENPHSAR_LINES already where the session has
 * had so many lines that this one with its bytes for lines would be too many. */
int32_t tenphsar_load(tenphsar *session, const char *name, size_t len, const char *start, size_t start_len,
                      const char *outline, size_t outline_len);

/* Closes the presentation of the name, and gives its memory back. It leaves no records. `close NAME` */
int32_t tenphsar_unload(tenphsar *session, const char *name, size_t len);

/* Moves on by a length. `NAME advance LENGTH` */
int32_t tenphsar_advance(tenphsar *session, const char *name, size_t len, int64_t by);

/* Moves to a moment of document time; backward, later events, lengths and keys are removed. `NAME seek MOMENT` */
int32_t tenphsar_seek(tenphsar *session, const char *name, size_t len, int64_t to);

/* An event of this name on an element, at the present moment. `NAME event #ELEMENT EVENT` */
int32_t tenphsar_event(tenphsar *session, const char *name, size_t len, uint32_t element, const char *event,
                       size_t event_len);

/* The length of an element's media, known from the present moment on. `NAME media #ELEMENT LENGTH` */
int32_t tenphsar_media(tenphsar *session, const char *name, size_t len, uint32_t element, int64_t length);

/* A press of an access key, one byte, at the present moment. `NAME key KEY` */
int32_t tenphsar_key(tenphsar *session, const char *name, size_t len, uint8_t key);

/* Gives an attribute of an element a value, takes it away, inserts a node as the child of an element at a place from 1,
 * and removes an element with all below it. A node is a line of an outline without its spaces in front. Values and
 * nodes are of UTF-8, and with the name of the attribute at most 16,318 bytes; a value has no quote.
 * `NAME set #ELEMENT ATTRIBUTE "VALUE"`, `NAME unset #ELEMENT ATTRIBUTE`, `NAME insert #ELEMENT PLACE NODE`,
 * `NAME remove #ELEMENT` */
int32_t tenphsar_set(tenphsar *session, const char *name, size_t len, uint32_t element, const char *attribute,
                     size_t attribute_len, const char *value, size_t value_len);
int32_t tenphsar_unset(tenphsar *session, const char *name, size_t len, uint32_t element, const char *attribute,
                       size_t attribute_len);
int32_t tenphsar_insert(tenphsar *session, const char *name, size_t len, uint32_t element, uint32_t place,
                        const char *node, size_t node_len);
int32_t tenphsar_remove(tenphsar *session, const char *name, size_t len, uint32_t element);

/* The state of an element, and how a time is shown. */
enum {
    TENPHSAR_IDLE,
    TENPHSAR_WAITING,
    TENPHSAR_ACTIVE,
    TENPHSAR_PAUSED,
    TENPHSAR_DEFERRED,
    TENPHSAR_FROZEN,
    TENPHSAR_ENDED, /* `done` */
    TENPHSAR_GONE   /* removed: the record says nothing else of it */
};
enum {
    TENPHSAR_NO_TIME,    /* `-` */
    TENPHSAR_AT,         /* a moment of document time, in milliseconds */
    TENPHSAR_INDEFINITE, /* `indefinite` */
    TENPHSAR_UNRESOLVED, /* `unresolved` */
    TENPHSAR_STANDING    /* `?`: its clock stands, so that no moment can be told */
};

/* What an order changed of an element: what the change line says. `begin` and `end` are 0 where they are no moments. */
typedef struct tenphsar_change {
    int64_t moment, begin, end;
    uint32_t element, iteration, finished;
    uint8_t state, begin_is, end_is, reserved;
} tenphsar_change;

/* How many records the last order that was taken in left: 0 where it was a line, or was refused. */
size_t tenphsar_count(tenphsar *session);

/* Copies the records of the last order to `out`, in the order of its change lines, from the record `from` on, at most
 * `room` of them, and gives how many were copied. The rest of `out` stays as it was. They stand until a line or an
 * order is taken in. */
size_t tenphsar_changes(tenphsar *session, size_t from, tenphsar_change *out, size_t room);

/* Where the last order by a call was refused: the number of its line, which counts on with each line and each order,
 * and of a load that of the line at fault; and the column in that line, in bytes from 1. They are those that the line
 * `! ..` of the refusal would name. 0 where there is none: no column, or the order was carried out, or the last was a
 * line. A call that answers a number below 0 leaves it, and so does one that had no memory for its texts. An edit counts
 * its columns as if `NAME set #ELEMENT ` and the like took 63 bytes. */
typedef struct tenphsar_place {
    uint32_t line, column;
} tenphsar_place;
void tenphsar_fault(tenphsar *session, tenphsar_place *out);

/* The serial of the node with this id in the presentation of this name: 0 where there is no such node or no such
 * presentation, and -1 where there is no memory for the call. A serial stays with its node, also where its id is
 * changed. */
int64_t tenphsar_find(tenphsar *session, const char *name, size_t len, const char *id, size_t id_len);

/* What is on the screen of an element. */
enum {
    TENPHSAR_SHOWS_NOTHING = 0,  /* it is neither active nor frozen */
    TENPHSAR_SHOWS_PLAYING = 1,  /* it is active, and its clock runs */
    TENPHSAR_SHOWS_STANDING = 2, /* it is active, and its clock stands: it or an element above it is paused */
    TENPHSAR_SHOWS_FROZEN = 3    /* it is frozen */
};

/* `position` is where its media is, in milliseconds from the begin of the present iteration; of a frozen element where
 * it stopped, and 0 where it shows nothing. */
typedef struct tenphsar_on_screen {
    int64_t position;
    uint32_t element, iteration, showing, reserved;
} tenphsar_on_screen;

/* Writes to `out` what is on the screen of the element at the place `index` in document order, from 0, at the present
 * moment of the presentation of this name, and gives 1. It gives 0 past the last element, and where there is no such
 * presentation: `out` stays then. The session stays as it is. */
int32_t tenphsar_screen(tenphsar *session, const char *name, size_t len, size_t index, tenphsar_on_screen *out);

/* Ends a session, and gives its memory back. It is not open then, and may be opened anew. */
void tenphsar_close(tenphsar *session);

#ifdef __cplusplus
}
#endif

#endif
