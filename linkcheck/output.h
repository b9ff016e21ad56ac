/* What is written. Text is gathered in memory: that for a descriptor is sent when its room is full or when that is asked for, other text is
 * kept. After something has gone wrong nothing more is added, and `error` says what it was: it is looked at once, at the end. */
#ifndef OUTPUT_H
#define OUTPUT_H

#include <stddef.h>

/* The exit status if something can't be read or written. */
enum { STATUS_UNREAD = 3 };

/* No descriptor: the text is kept, on the heap. */
enum { KEPT = -1 };

struct output {
    int file;
    char *bytes;
    size_t length, room;
    int error; /* 0, or the errno of what went wrong first */
};

extern struct output standard_output;

void put(struct output *o, const char *words);
void put_bytes(struct output *o, const void *bytes, size_t length);

/* Adds at most 255 bytes by a format; more are an error. */
#ifdef __GNUC__
__attribute__((format(printf, 2, 3)))
#endif
void print(struct output *o, const char *format, ...);

/* Adds a number with commas, as 65,536. */
void put_count(struct output *o, size_t number);

/* Sends what is gathered. */
void output_flush(struct output *o);

/* Sends what is gathered and closes the descriptor, as some errors are told no earlier. Gives 0, or the errno of what went wrong first. */
int output_close(struct output *o);

/* Writes all the bytes. Gives 0 or an errno. */
int write_all(int file, const void *bytes, size_t length);

/* A message on standard error: begun with "linkcheck: ", added to, and sent with a byte 10 at its end. Sending gives the status, or
 * STATUS_UNREAD if the message can't be written. */
struct output *message(void);
int message_sent(struct output *m, int status);

/* The message "linkcheck: NAME: WHY". */
int complain(int status, const char *name, const char *why);

/* Ends the program with STATUS_UNREAD after what is gathered for standard output, and a message. */
_Noreturn void give_up(const char *why);
_Noreturn void no_memory(void);

#endif
