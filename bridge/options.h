/* Options of a program, from a file and from the command line, which goes before the file. */
#ifndef BRIDGE_OPTIONS_H
#define BRIDGE_OPTIONS_H

#include "faults.h"
#include <stdbool.h>

enum option_kind { OPTION_NUMBER, OPTION_TEXT, OPTION_YES };

/* An option. A program makes a list of these. What stands at `to` stays where none is given. */
struct option {
    const char *name;
    const char *meaning;
    enum option_kind kind;
    void *to;       /* a uint64_t; a list of characters of `most` + 1; a bool */
    uint64_t least; /* of a number, or of the length of a text */
    uint64_t most;
    const char *signs; /* of a text: those that it may have, beside letters and digits; NULL: all */
    bool in_file;      /* was given in the file */
    bool in_line;      /* was given on the command line */
};

/* Reads `--options FILE`, a line `name = value` each with `#` for comments; then `--name value`.
   What is refused is the first that is wrong, and BRIDGE_OK says that there is none. */
enum bridge_code options_read(struct option *options, size_t many, int words, char **word,
                              struct bridge_fault *fault);

/* Whether the command line asks for help. */
bool options_help(int words, char **word);

/* Prints each option with its range and its value now. */
void options_print(const struct option *options, size_t many);

/* What a bridge wants to know. */
struct bridge_options {
    char engine[161];    /* where the engine is */
    char stream[33];     /* the stream's name */
    uint64_t node;       /* this node's number */
    uint64_t workers;    /* its workers: each sends and hears */
    uint64_t window;     /* entries sent and not heard back, at most */
    uint64_t batch;      /* items in an entry, at most */
    uint64_t ahead;      /* messages that a worker may have sent and not heard */
    uint64_t log_words;  /* words of the ring of each of its two buses */
    uint64_t checkpoint; /* entries from checkpoint to checkpoint */
    uint64_t pause;      /* the longest pause between two tries, in milliseconds */
    uint64_t wait;       /* how long a silent engine is waited for, in milliseconds */
    uint64_t report;     /* seconds between two lines of progress; 0: none */
    uint64_t entries;    /* where the stream is made: entries that it takes; 0: no limit */
    uint64_t replicas;   /* and how many copies of it the engine keeps */
    bool create;         /* make the stream where there is none */
};

enum { BRIDGE_OPTIONS = 15 };

/* The usual values, and the list of these options. */
void bridge_options_usual(struct bridge_options *options);
void bridge_options_list(struct bridge_options *options, struct option list[BRIDGE_OPTIONS]);

/* Whether each number is in its range and each text is one that may be, of options that no command
   line gave too. BRIDGE_OK, BRIDGE_OUT_OF_RANGE or BRIDGE_BAD_TEXT. */
enum bridge_code bridge_options_check(struct bridge_options *options, struct bridge_fault *fault);

#endif
