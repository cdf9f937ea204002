#include "engine.h"
#include "entries.h"
#include <nats/nats.h>
#include <pthread.h>
#include <stdio.h>
#include <stdlib.h>
#include <string.h>
#include <time.h>

enum { BEAT = 1000 /* milliseconds between two signs of life */ };

struct engine_link {
    const struct bridge_options *options;
    natsConnection *connection;
    jsCtx *jetstream;
    natsSubscription *answers; /* to what was appended */
    natsSubscription *reading;
    char inbox[64];
    char subject[64]; /* of this node's entries */
    int64_t heard;    /* when there was a sign of life, in milliseconds */
    uint64_t stored;
    uint64_t place;
    uint64_t given; /* the last place that came to it, of those that are read */
};

/* Milliseconds of a clock that does not go back. */
static int64_t now(void) {
    struct timespec at;
    clock_gettime(CLOCK_MONOTONIC, &at);
    return (int64_t)at.tv_sec * 1000 + at.tv_nsec / 1000000;
}

static bool is_open(struct engine_link *link) {
    return link->connection && !natsConnection_IsClosed(link->connection);
}

/* Whether a call went well. If not, what the link waits for. */
static bool went(struct engine_link *link, natsStatus status, const char *what,
                 struct bridge_fault *fault) {
    if (status == NATS_OK) return true;
    const char *more = nats_GetLastError(NULL);
    enum bridge_code code = BRIDGE_ENGINE_REFUSES;
    if (status == NATS_TIMEOUT) code = BRIDGE_ENGINE_SILENT;
    if (status == NATS_NO_MEMORY) code = BRIDGE_NO_MEMORY;
    if (status == NATS_NO_RESPONDERS) code = BRIDGE_STREAM_ABSENT;
    if (!is_open(link)) code = BRIDGE_ENGINE_ABSENT;
    if (status == NATS_TIMEOUT || !more) more = "";
    fault_set(fault, code, "%s: %s%s%.120s", what, natsStatus_GetText(status), *more ? ": " : "",
              more);
    return false;
}

static natsStatus connect_options(natsOptions *to, const struct bridge_options *options,
                                  const char *name, char *list) {
    const char *servers[sizeof options->engine];
    int many = 0;
    char *rest = NULL;
    for (char *one = strtok_r(list, ",", &rest); one; one = strtok_r(NULL, ",", &rest)) {
        servers[many++] = one;
    }
    natsStatus status = natsOptions_SetServers(to, servers, many);
    if (status == NATS_OK) status = natsOptions_SetName(to, name);
    if (status == NATS_OK) status = natsOptions_SetTimeout(to, (int64_t)options->wait);
    if (status == NATS_OK) status = natsOptions_SetWriteDeadline(to, (int64_t)options->wait);
    if (status == NATS_OK) status = natsOptions_SetAllowReconnect(to, false);
    if (status == NATS_OK) status = natsOptions_SetSendAsap(to, true);
    return status;
}

/* An error handler that says nothing: what is wrong is said where it is met. */
static void pass_over(natsConnection *connection, natsSubscription *subscription, natsStatus status,
                      void *closure) {
    (void)connection;
    (void)subscription;
    (void)status;
    (void)closure;
}

static natsStatus open_connection(struct engine_link *link, const char *name) {
    const struct bridge_options *options = link->options;
    char list[sizeof options->engine];
    natsOptions *set = NULL;
    jsOptions wait;
    memcpy(list, options->engine, sizeof list);
    natsStatus status = natsOptions_Create(&set);
    if (status == NATS_OK) status = connect_options(set, options, name, list);
    if (status == NATS_OK) status = natsOptions_SetErrorHandler(set, pass_over, NULL);
    if (status == NATS_OK) status = natsConnection_Connect(&link->connection, set);
    natsOptions_Destroy(set);
    if (status == NATS_OK) status = jsOptions_Init(&wait);
    if (status == NATS_OK) {
        wait.Wait = (int64_t)options->wait;
        status = natsConnection_JetStream(&link->jetstream, link->connection, &wait);
    }
    return status;
}

/* Whether the engine answered an error, and its text. */
static bool told_error(const char *text, char *to, size_t room) {
    const char *error = strstr(text, "\"error\":");
    if (!error) return false;
    const char *says = strstr(error, "\"description\":\"");
    says = says ? says + strlen("\"description\":\"") : error;
    size_t length = strcspn(says, "\"");
    snprintf(to, room, "%.*s", length < 200 ? (int)length : 200, says);
    return true;
}

static uint64_t told_place(const char *text) {
    const char *at = strstr(text, "\"seq\":");
    return at ? strtoull(at + strlen("\"seq\":"), NULL, 10) : 0;
}

/* Notes the engine's answer to an entry. False where it was refused. */
static bool note_answer(struct engine_link *link, const natsMsg *answer,
                        struct bridge_fault *fault) {
    char text[256] = "", error[220];
    int length = natsMsg_GetDataLength(answer);
    if (length > 255) length = 255;
    memcpy(text, length ? natsMsg_GetData(answer) : "", (size_t)length);
    if (!length) {
        fault_set(fault, BRIDGE_STREAM_ABSENT, "nobody keeps the stream");
        return false;
    }
    if (told_error(text, error, sizeof error)) {
        fault_set(fault, BRIDGE_ENGINE_REFUSES, "%s", error);
        return false;
    }
    link->stored++;
    uint64_t place = told_place(text);
    if (place > link->place) link->place = place;
    return true;
}

static natsStatus hear_answers(struct engine_link *link) {
    natsInbox *inbox = NULL;
    natsStatus status = natsInbox_Create(&inbox);
    if (status != NATS_OK) return status;
    snprintf(link->inbox, sizeof link->inbox, "%s", (const char *)inbox);
    natsInbox_Destroy(inbox);
    status = natsConnection_SubscribeSync(&link->answers, link->connection, link->inbox);
    if (status == NATS_OK) status = natsSubscription_SetPendingLimits(link->answers, -1, -1);
    return status;
}

/* The client's library is opened once, before two threads use it. */
static pthread_once_t once = PTHREAD_ONCE_INIT;

static void open_library(void) {
    nats_Open(-1);
}

bool engine_connect(struct engine_link **to, const struct bridge_options *options, const char *name,
                    struct bridge_fault *fault) {
    struct engine_link *link = calloc(1, sizeof *link);
    if (!link) return fault_set(fault, BRIDGE_NO_MEMORY, "for a link"), false;
    pthread_once(&once, open_library);
    link->options = options;
    snprintf(link->subject, sizeof link->subject, "%s.%llu", options->stream,
             (unsigned long long)options->node);
    natsStatus status = open_connection(link, name);
    if (status == NATS_OK) status = hear_answers(link);
    if (status != NATS_OK) {
        bool full = status == NATS_NO_MEMORY;
        fault_set(fault, full ? BRIDGE_NO_MEMORY : BRIDGE_ENGINE_ABSENT, "%s: %s", options->engine,
                  natsStatus_GetText(status));
        engine_close(link);
        return false;
    }
    *to = link;
    return true;
}

/* Whether a stream keeps all that was appended. */
static bool keeps_all(const jsStreamConfig *has, struct bridge_fault *fault) {
    const char *wrong = NULL;
    if (has->Storage != js_FileStorage) wrong = "it is not kept on disk";
    if (has->Retention != js_LimitsPolicy) wrong = "it removes entries that were heard";
    if (has->Discard != js_DiscardNew) wrong = "it removes old entries when it is full";
    if (has->MaxAge > 0) wrong = "it removes entries by their age";
    if (has->MaxMsgsPerSubject > 0) wrong = "it has a limit for each node";
    if (has->NoAck) wrong = "it answers no entry, and no_ack has to be off";
    if (!has->DenyDelete) wrong = "it lets entries be removed, and has to deny_delete";
    if (!has->DenyPurge) wrong = "it lets all entries be removed, and has to deny_purge";
    if (wrong) fault_set(fault, BRIDGE_WRONG_STREAM, "the stream %s: %s", has->Name, wrong);
    return !wrong;
}

/* The longest entry that the engine and this stream of it take. */
static bool has_room(struct engine_link *link, const jsStreamConfig *has, uint64_t *room,
                     struct bridge_fault *fault) {
    int64_t engine = natsConnection_GetMaxPayload(link->connection);
    *room = engine > 0 ? (uint64_t)engine : UINT64_MAX;
    if (has->MaxMsgSize > 0 && (uint64_t)has->MaxMsgSize < *room) *room = (uint64_t)has->MaxMsgSize;
    if (*room >= ENGINE_LEAST) return true;
    fault_set(fault, BRIDGE_WRONG_STREAM,
              "the stream %s: it takes no entry of more than %llu bytes, and one has up to %d",
              has->Name, (unsigned long long)*room, ENGINE_LEAST);
    return false;
}

static natsStatus make_stream(struct engine_link *link, jsStreamInfo **info) {
    char subjects[64];
    const char *list[1] = {subjects};
    jsStreamConfig config;
    jsErrCode error = 0;
    jsStreamConfig_Init(&config);
    snprintf(subjects, sizeof subjects, "%s.*", link->options->stream);
    config.Name = link->options->stream;
    config.Subjects = list;
    config.SubjectsLen = 1;
    config.Storage = js_FileStorage;
    config.Retention = js_LimitsPolicy;
    config.Discard = js_DiscardNew;
    config.Replicas = (int64_t)link->options->replicas;
    config.DenyDelete = true;
    config.DenyPurge = true;
    if (link->options->entries) config.MaxMsgs = (int64_t)link->options->entries;
    return js_AddStream(info, link->jetstream, &config, NULL, &error);
}

bool engine_stream(struct engine_link *link, bool make, struct engine_stream *stream,
                   struct bridge_fault *fault) {
    jsStreamInfo *info = NULL;
    jsErrCode error = 0;
    natsStatus status =
        js_GetStreamInfo(&info, link->jetstream, link->options->stream, NULL, &error);
    if (status == NATS_NOT_FOUND || error == JSStreamNotFoundErr) {
        if (!make) {
            return fault_set(fault, BRIDGE_STREAM_ABSENT, "there is no stream %s",
                             link->options->stream),
                   false;
        }
        status = make_stream(link, &info);
    }
    if (!went(link, status, "to look at the stream", fault)) return false;
    bool good =
        keeps_all(info->Config, fault) && has_room(link, info->Config, &stream->room, fault);
    stream->first = info->State.FirstSeq;
    stream->last = info->State.LastSeq;
    jsStreamInfo_Destroy(info);
    return good;
}

/* The engine answers in text, and so in other bytes than those of an entry that is read. */
bool engine_get(struct engine_link *link, uint64_t place, struct engine_entry *entry, bool *there,
                struct bridge_fault *fault) {
    natsMsg *message = NULL;
    jsErrCode error = 0;
    memset(entry, 0, sizeof *entry);
    entry->place = place;
    natsStatus status =
        js_GetMsg(&message, link->jetstream, link->options->stream, place, NULL, &error);
    *there = status != NATS_NOT_FOUND && error != JSNoMessageFoundErr;
    if (!*there) return true;
    if (!went(link, status, "to ask for an entry", fault)) return false;
    entry->held = message;
    entry->bytes = (const uint8_t *)natsMsg_GetData(message);
    entry->length = (size_t)natsMsg_GetDataLength(message);
    return true;
}

/* A stream without entries is not asked: nats-server 2.9.10 ends by a fault of its own where it is
   asked for an entry of a stream that it is about to make. */
bool engine_last_own(struct engine_link *link, const struct engine_stream *stream, uint64_t *place,
                     struct bridge_fault *fault) {
    natsMsg *last = NULL;
    jsErrCode error = 0;
    *place = 0;
    if (!stream->last) return true;
    natsStatus status =
        js_GetLastMsg(&last, link->jetstream, link->options->stream, link->subject, NULL, &error);
    if (status == NATS_NOT_FOUND || error == JSNoMessageFoundErr) return true;
    if (!went(link, status, "to find the last entry of this node", fault)) return false;
    *place = natsMsg_GetSequence(last);
    natsMsg_Destroy(last);
    return true;
}

bool engine_append_after(struct engine_link *link, uint64_t after, const uint8_t *bytes,
                         size_t length, uint64_t *place, struct bridge_fault *fault) {
    natsMsg *entry = NULL;
    jsPubAck *stored = NULL;
    jsErrCode error = 0;
    char text[24];
    snprintf(text, sizeof text, "%llu", (unsigned long long)after);
    natsStatus status =
        natsMsg_Create(&entry, link->subject, NULL, (const char *)bytes, (int)length);
    if (status == NATS_OK)
        status = natsMsgHeader_Set(entry, "Nats-Expected-Last-Subject-Sequence", text);
    if (status == NATS_OK) status = js_PublishMsg(&stored, link->jetstream, entry, NULL, &error);
    bool good = went(link, status, "to begin", fault);
    if (good) *place = stored->Sequence;
    if (good && strcmp(stored->Stream, link->options->stream)) {
        fault_set(fault, BRIDGE_WRONG_STREAM, "the stream %s: the engine keeps %s in the stream %s",
                  link->options->stream, link->subject, stored->Stream);
        good = false;
    }
    jsPubAck_Destroy(stored);
    natsMsg_Destroy(entry);
    return good;
}

bool engine_append(struct engine_link *link, const uint8_t *bytes, size_t length,
                   struct bridge_fault *fault) {
    natsStatus status = natsConnection_PublishRequest(link->connection, link->subject, link->inbox,
                                                      bytes, (int)length);
    return went(link, status, "to append", fault);
}

bool engine_stored(struct engine_link *link, uint64_t *many, uint64_t *place,
                   struct bridge_fault *fault) {
    natsMsg *answer = NULL;
    natsStatus status;
    bool good = true;
    while (good && (status = natsSubscription_NextMsg(&answer, link->answers, 0)) == NATS_OK) {
        good = note_answer(link, answer, fault);
        natsMsg_Destroy(answer);
    }
    if (good && status != NATS_TIMEOUT)
        good = went(link, status, "to hear that it is stored", fault);
    *many = link->stored;
    *place = link->place;
    return good;
}

bool engine_read_from(struct engine_link *link, uint64_t place, struct bridge_fault *fault) {
    natsInbox *inbox = NULL;
    jsConsumerInfo *info = NULL;
    jsConsumerConfig config;
    jsErrCode error = 0;
    natsStatus status = natsInbox_Create(&inbox);
    jsConsumerConfig_Init(&config);
    config.DeliverSubject = inbox;
    config.DeliverPolicy = js_DeliverByStartSequence;
    config.OptStartSeq = place;
    config.AckPolicy = js_AckNone;
    config.FlowControl = true;
    config.Heartbeat = BEAT * 1000000LL;
    config.MemoryStorage = true;
    if (status == NATS_OK)
        status = natsConnection_SubscribeSync(&link->reading, link->connection, inbox);
    if (status == NATS_OK) status = natsSubscription_SetPendingLimits(link->reading, -1, -1);
    if (status == NATS_OK) {
        status =
            js_AddConsumer(&info, link->jetstream, link->options->stream, &config, NULL, &error);
    }
    jsConsumerInfo_Destroy(info);
    natsInbox_Destroy(inbox);
    link->heard = now();
    link->given = place - 1;
    return went(link, status, "to read the stream", fault);
}

/* The place of an entry and how many are behind it, from where its acknowledgement would go:
   $JS.ACK.STREAM.CONSUMER.TRIES.PLACE.COUNT.TIME.BEHIND, with two words more before STREAM where
   the engine has domains. */
static bool read_place(const char *reply, struct engine_entry *entry) {
    const char *word[13];
    int many = 0;
    for (const char *at = reply; at && many < 13; many++) {
        word[many] = at;
        at = strchr(at, '.');
        if (at) at++;
    }
    if (many < 9 || many == 10 || strncmp(reply, "$JS.ACK.", 8)) return false;
    int more = many == 9 ? 0 : 2;
    entry->place = strtoull(word[5 + more], NULL, 10);
    entry->behind = strtoull(word[8 + more], NULL, 10);
    return true;
}

/* A sign of life, which may want an answer before more entries come. */
static void answer_sign(struct engine_link *link, natsMsg *sign) {
    const char *reply = natsMsg_GetReply(sign), *stalled = NULL;
    if (reply && *reply) natsConnection_Publish(link->connection, reply, "", 0);
    if (natsMsgHeader_Get(sign, "Nats-Consumer-Stalled", &stalled) == NATS_OK && stalled) {
        natsConnection_Publish(link->connection, stalled, "", 0);
    }
}

/* Whether the engine has been silent for too long. */
static enum engine_read nothing(struct engine_link *link, struct bridge_fault *fault) {
    int64_t silent = now() - link->heard;
    if (silent < (int64_t)link->options->wait + BEAT) return ENGINE_NOTHING;
    fault_set(fault, BRIDGE_ENGINE_SILENT, "no sign of it for %lld ms", (long long)silent);
    return ENGINE_BROKEN;
}

/* Whether a sign of life tells of entries that were given and did not come. */
static bool is_lacking(struct engine_link *link, natsMsg *sign, struct bridge_fault *fault) {
    const char *text = NULL;
    if (natsMsgHeader_Get(sign, "Nats-Last-Stream", &text) != NATS_OK || !text) return false;
    unsigned long long last = strtoull(text, NULL, 10), given = link->given;
    if (last <= given) return false;
    fault_set(fault, BRIDGE_ENGINE_SILENT,
              "it has given entries up to %llu, and those up to %llu came", last, given);
    return true;
}

/* The client keeps an entry without bytes to itself whose header is that of an answer of nobody,
   and says so alone. */
enum engine_read engine_next(struct engine_link *link, int64_t milliseconds,
                             struct engine_entry *entry, struct bridge_fault *fault) {
    natsMsg *message = NULL;
    natsStatus status = natsSubscription_NextMsg(&message, link->reading, milliseconds);
    if (status == NATS_TIMEOUT) return nothing(link, fault);
    if (status != NATS_NO_RESPONDERS && !went(link, status, "to hear the next entry", fault))
        return ENGINE_BROKEN;
    link->heard = now();
    if (status == NATS_NO_RESPONDERS) return link->given++, ENGINE_UNSEEN;
    const char *reply = natsMsg_GetReply(message);
    entry->held = message;
    entry->bytes = (const uint8_t *)natsMsg_GetData(message);
    entry->length = (size_t)natsMsg_GetDataLength(message);
    if (reply && read_place(reply, entry)) return link->given = entry->place, ENGINE_ENTRY;
    bool lacks = is_lacking(link, message, fault);
    if (!lacks) answer_sign(link, message);
    natsMsg_Destroy(message);
    return lacks ? ENGINE_BROKEN : ENGINE_NOTHING;
}

void engine_release(struct engine_entry *entry) {
    natsMsg_Destroy(entry->held);
    entry->held = NULL;
}

/* The connection is closed first, which ends the client's thread that reads: libnats 3.4.1 follows
   a subscription that was destroyed while an entry of it came in. */
void engine_close(struct engine_link *link) {
    if (!link) return;
    if (link->connection) natsConnection_Close(link->connection);
    natsSubscription_Destroy(link->answers);
    natsSubscription_Destroy(link->reading);
    jsCtx_Destroy(link->jetstream);
    natsConnection_Destroy(link->connection);
    free(link);
}

void engine_end(void) {
    nats_CloseAndWait(2000);
}
