#include "options.h"
#include "bounds.h"
#include <ctype.h>
#include <errno.h>
#include <stdio.h>
#include <stdlib.h>
#include <string.h>

typedef unsigned long long number;

static struct option *find(struct option *options, size_t many, const char *name) {
    for (size_t i = 0; i < many; i++) {
        if (!strcmp(options[i].name, name)) return &options[i];
    }
    return NULL;
}

static enum bridge_code set_number(struct option *option, const char *value, const char *where,
                                   struct bridge_fault *fault) {
    char *end = NULL;
    errno = 0;
    number read = strtoull(value, &end, 10);
    if (!isdigit((unsigned char)value[0]) || *end) {
        return fault_set(fault, BRIDGE_NOT_A_NUMBER, "%s is a number, and not '%.40s' (%s)",
                         option->name, value, where);
    }
    if (errno || read < option->least || read > option->most) {
        return fault_set(fault, BRIDGE_OUT_OF_RANGE, "%s is %llu to %llu, and not %.40s (%s)",
                         option->name, (number)option->least, (number)option->most, value, where);
    }
    *(uint64_t *)option->to = read;
    return BRIDGE_OK;
}

static bool may_have(const struct option *option, char sign) {
    if (!option->signs) return isprint((unsigned char)sign);
    return isalnum((unsigned char)sign) || (sign && strchr(option->signs, sign));
}

/* Whether an option may be this text, of which `most` + 1 characters are looked at. */
static enum bridge_code check_text(const struct option *option, const char *value,
                                   const char *where, struct bridge_fault *fault) {
    size_t length = strnlen(value, option->most + 1);
    if (length < option->least || length > option->most) {
        return fault_set(fault, BRIDGE_OUT_OF_RANGE,
                         "%s has %llu to %llu characters, and here %s (%s)", option->name,
                         (number)option->least, (number)option->most,
                         length < option->least ? "fewer" : "more", where);
    }
    for (size_t i = 0; i < length; i++) {
        if (may_have(option, value[i])) continue;
        return fault_set(fault, BRIDGE_BAD_TEXT,
                         "%s has letters, digits and '%s', and not '%.40s' (%s)", option->name,
                         option->signs ? option->signs : "any sign", value, where);
    }
    return BRIDGE_OK;
}

static enum bridge_code set_text(struct option *option, const char *value, const char *where,
                                 struct bridge_fault *fault) {
    enum bridge_code code = check_text(option, value, where, fault);
    if (code == BRIDGE_OK) strcpy(option->to, value);
    return code;
}

static enum bridge_code set_yes(struct option *option, const char *value, const char *where,
                                struct bridge_fault *fault) {
    bool yes = !strcmp(value, "yes");
    if (!yes && strcmp(value, "no")) {
        return fault_set(fault, BRIDGE_BAD_TEXT, "%s is yes or no, and not '%.40s' (%s)",
                         option->name, value, where);
    }
    *(bool *)option->to = yes;
    return BRIDGE_OK;
}

static enum bridge_code set(struct option *option, const char *value, const char *where,
                            struct bridge_fault *fault) {
    switch (option->kind) {
    case OPTION_NUMBER: return set_number(option, value, where, fault);
    case OPTION_TEXT: return set_text(option, value, where, fault);
    case OPTION_YES: return set_yes(option, value, where, fault);
    }
    return BRIDGE_OK;
}

/* Without blanks at both ends. */
static char *trimmed(char *text) {
    while (isspace((unsigned char)*text)) text++;
    size_t length = strlen(text);
    while (length && isspace((unsigned char)text[length - 1])) text[--length] = 0;
    return text;
}

/* One line of the file. */
static enum bridge_code read_line(struct option *options, size_t many, char *line,
                                  const char *where, struct bridge_fault *fault) {
    char *comment = strchr(line, '#');
    if (comment) *comment = 0;
    char *name = trimmed(line);
    if (!*name) return BRIDGE_OK;
    char *equals = strchr(name, '=');
    if (!equals)
        return fault_set(fault, BRIDGE_BAD_LINE, "no 'name = value': '%.40s' (%s)", name, where);
    *equals = 0;
    char *value = trimmed(equals + 1);
    name = trimmed(name);
    struct option *option = find(options, many, name);
    if (!option) return fault_set(fault, BRIDGE_NO_SUCH_OPTION, "'%.40s' (%s)", name, where);
    if (!*value) return fault_set(fault, BRIDGE_NO_VALUE, "%s has none (%s)", name, where);
    if (option->in_file) return fault_set(fault, BRIDGE_GIVEN_TWICE, "%s (%s)", name, where);
    option->in_file = true;
    return set(option, value, where, fault);
}

static enum bridge_code read_file(struct option *options, size_t many, const char *path,
                                  struct bridge_fault *fault) {
    char line[400], where[200];
    FILE *file = fopen(path, "r");
    if (!file) return fault_set(fault, BRIDGE_NO_FILE, "%.200s: %s", path, strerror(errno));
    enum bridge_code code = BRIDGE_OK;
    for (unsigned at = 1; code == BRIDGE_OK && fgets(line, sizeof line, file); at++) {
        snprintf(where, sizeof where, "%.150s, line %u", path, at);
        if (strlen(line) == sizeof line - 1 && line[sizeof line - 2] != '\n') {
            code = fault_set(fault, BRIDGE_BAD_LINE, "longer than 398 characters (%s)", where);
        } else {
            code = read_line(options, many, line, where, fault);
        }
    }
    if (code == BRIDGE_OK && ferror(file)) {
        code = fault_set(fault, BRIDGE_NO_FILE, "%.200s cannot be read", path);
    }
    fclose(file);
    return code;
}

/* Reads `--name value`, or where `file` is not NULL the `--options` alone. */
static enum bridge_code read_words(struct option *options, size_t many, int words, char **word,
                                   const char **file, struct bridge_fault *fault) {
    for (int i = 1; i < words; i += 2) {
        if (strncmp(word[i], "--", 2)) {
            return fault_set(fault, BRIDGE_NO_SUCH_OPTION, "'%.40s' (command line)", word[i]);
        }
        const char *name = word[i] + 2;
        bool of_file = !strcmp(name, "options");
        struct option *option = of_file ? NULL : find(options, many, name);
        if (!of_file && !option) {
            return fault_set(fault, BRIDGE_NO_SUCH_OPTION, "'%.40s' (command line)", word[i]);
        }
        if (i + 1 == words) {
            return fault_set(fault, BRIDGE_NO_VALUE, "%s has none (command line)", name);
        }
        if (file ? of_file && *file : option && option->in_line) {
            return fault_set(fault, BRIDGE_GIVEN_TWICE, "%s (command line)", name);
        }
        if (file && of_file) *file = word[i + 1];
        if (file || of_file) continue;
        option->in_line = true;
        enum bridge_code code = set(option, word[i + 1], "command line", fault);
        if (code != BRIDGE_OK) return code;
    }
    return BRIDGE_OK;
}

enum bridge_code options_read(struct option *options, size_t many, int words, char **word,
                              struct bridge_fault *fault) {
    const char *path = NULL;
    enum bridge_code code = read_words(options, many, words, word, &path, fault);
    if (code == BRIDGE_OK && path) code = read_file(options, many, path, fault);
    return code == BRIDGE_OK ? read_words(options, many, words, word, NULL, fault) : code;
}

bool options_help(int words, char **word) {
    for (int i = 1; i < words; i++) {
        if (!strcmp(word[i], "--help")) return true;
    }
    return false;
}

void options_print(const struct option *options, size_t many) {
    printf("  --options FILE: a line 'name = value' each; the command line goes before it\n");
    for (size_t i = 0; i < many; i++) {
        const struct option *option = &options[i];
        printf("  --%s: %s; ", option->name, option->meaning);
        if (option->kind == OPTION_NUMBER) {
            printf("%llu to %llu, now %llu\n", (number)option->least, (number)option->most,
                   (number) * (const uint64_t *)option->to);
        } else if (option->kind == OPTION_YES) {
            printf("yes or no, now %s\n", *(const bool *)option->to ? "yes" : "no");
        } else {
            printf("now '%s'\n", (const char *)option->to);
        }
    }
}

void bridge_options_usual(struct bridge_options *options) {
    *options = (struct bridge_options){.engine = "nats://127.0.0.1:4222",
                                       .stream = "kioskbasil",
                                       .workers = 4,
                                       .window = 512,
                                       .batch = 64,
                                       .ahead = 4096,
                                       .log_words = 65536,
                                       .checkpoint = 1000,
                                       .pause = 2000,
                                       .wait = 5000,
                                       .report = 5,
                                       .replicas = 1,
                                       .create = true};
}

#define A_NUMBER(field, from, to_, says)                                                           \
    {                                                                                              \
        .name = #field, .meaning = says, .kind = OPTION_NUMBER, .to = &options->field,             \
        .least = from, .most = to_                                                                 \
    }
#define A_TEXT(field, signs_, says)                                                                \
    {                                                                                              \
        .name = #field, .meaning = says, .kind = OPTION_TEXT, .to = options->field, .least = 1,    \
        .most = sizeof options->field - 1, .signs = signs_                                         \
    }

void bridge_options_list(struct bridge_options *options, struct option list[BRIDGE_OPTIONS]) {
    const struct option made[BRIDGE_OPTIONS] = {
        A_TEXT(engine, ":/.-_@,[]", "the engine's address, or several with commas between"),
        A_TEXT(stream, "_-", "the name of the stream"),
        A_NUMBER(node, 0, BRIDGE_MOST_NODES - 1, "this node, of which there is one"),
        A_NUMBER(workers, 1, BRIDGE_MOST_WORKERS, "workers, each of which sends and hears"),
        A_NUMBER(window, 1, BRIDGE_MOST_WINDOW, "entries sent and not heard back, at most"),
        A_NUMBER(batch, 1, BRIDGE_MOST_BATCH, "items in an entry, at most"),
        A_NUMBER(ahead, 16, 8192, "messages that a worker may have sent and not heard, at most"),
        A_NUMBER(log_words, 4096, 65536, "words of the ring of each of the two buses"),
        A_NUMBER(checkpoint, 1, 100000000, "entries from one place that can be kept to the next"),
        A_NUMBER(pause, 10, 600000, "the longest pause between two tries, in milliseconds"),
        A_NUMBER(wait, 100, 600000, "how long a silent engine is waited for, in milliseconds"),
        A_NUMBER(report, 0, 86400, "seconds between two lines of progress, or 0 for none"),
        A_NUMBER(entries, 0, 1000000000000, "entries that a new stream takes, or 0 for no limit"),
        A_NUMBER(replicas, 1, 5, "copies that the engine keeps of a new stream"),
        {.name = "create",
         .meaning = "make the stream if there is none",
         .kind = OPTION_YES,
         .to = &options->create},
    };
    memcpy(list, made, sizeof made);
}

enum bridge_code bridge_options_check(struct bridge_options *options, struct bridge_fault *fault) {
    struct option list[BRIDGE_OPTIONS];
    bridge_options_list(options, list);
    enum bridge_code code = BRIDGE_OK;
    for (size_t i = 0; i < BRIDGE_OPTIONS && code == BRIDGE_OK; i++) {
        if (list[i].kind == OPTION_TEXT)
            code = check_text(&list[i], list[i].to, "a program", fault);
        if (list[i].kind != OPTION_NUMBER) continue;
        uint64_t is = *(const uint64_t *)list[i].to;
        if (is >= list[i].least && is <= list[i].most) continue;
        code = fault_set(fault, BRIDGE_OUT_OF_RANGE, "%s is %llu to %llu, and not %llu (a program)",
                         list[i].name, (number)list[i].least, (number)list[i].most, (number)is);
    }
    return code;
}
