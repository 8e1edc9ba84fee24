/*
 * A refused call stores nothing, not even what stands there already: here the record, the tables, the bytes of events and the
 * buffers are in read-only memory, and every call that can be refused is refused there, by each of its refusals, an I/O at its
 * first reference. Points are answered there too. A call that stores something is named, and the test fails.
 */
#include "rockgingham.h"

#include <setjmp.h>
#include <signal.h>
#include <stdio.h>
#include <string.h>
#include <sys/mman.h>
#include <unistd.h>

enum { LIMIT = 4, WIDTH = 1, BUCKETS = 4, NEEDED = ROCKGINGHAM_COUNTS_NEEDED(BUCKETS), FIRST = BUCKETS + 1, MEMORY = 65536 };
enum { SPAN = 65536 }; /* the length of an I/O */

/* Everything that is lent. */
struct lent {
    uint64_t record[ROCKGINGHAM_RECORD_WORDS];
    uint64_t locations[LIMIT];
    uint64_t counts[NEEDED];
    uint32_t thresholds[NEEDED];
    uint8_t location_event[ROCKGINGHAM_LENGTH_LOCATION];
    uint8_t span_event[ROCKGINGHAM_LENGTH_SPAN];
    uint8_t empty_event[ROCKGINGHAM_LENGTH_SPAN];
    uint8_t overrun_event[ROCKGINGHAM_LENGTH_SPAN];
    uint8_t restart_event[ROCKGINGHAM_LENGTH_RESTART];
    uint8_t setup_event[ROCKGINGHAM_LENGTH_SETUP];
    uint8_t unknown_event[ROCKGINGHAM_LENGTH_SETUP];
};

static struct lent *lent;
static size_t words, locations, counts, thresholds; /* how many of each are lent */

/* What is asked for. */
static struct rockgingham_settings settings;
static struct rockgingham_shape believed;
static uint64_t number, location;

/* ---- what goes wrong */

static const char *volatile state = "", *volatile call = "";
static int wrong, writable;
static unsigned calls; /* those made while nothing is writable */
static sigjmp_buf expected_fault;
static volatile sig_atomic_t expecting;

static void say(const char *text)
{
    if (write(STDOUT_FILENO, text, strlen(text)) < 0) {
        _exit(2);
    }
}

static void on_fault(int signal)
{
    (void)signal;
    if (expecting) {
        siglongjmp(expected_fault, 1);
    }
    say("read only: ");
    say(state);
    say(", ");
    say(call);
    say(": wrote to read-only memory\n");
    _exit(1);
}

static void fails(const char *what, uint64_t got, uint64_t expected)
{
    printf("read only: %s, %s: %s %llu, expected %llu\n", state, call, what, (unsigned long long)got,
           (unsigned long long)expected);
    wrong = 1;
}

/* What a call gave: the refusal, then zeros if it was refused. */
static void check(const void *given, size_t size, uint64_t expected)
{
    uint64_t fields[16];
    memcpy(fields, given, size);
    if (fields[0] != expected) {
        fails("refusal", fields[0], expected);
    }
    for (size_t i = 1; expected != ROCKGINGHAM_ACCEPTED && i < size / sizeof fields[0]; i++) {
        if (fields[i] != 0) {
            fails("a field", fields[i], 0);
        }
    }
    calls += !writable;
}

#define EXPECT(type, name, made, expected)                                                                                       \
    do {                                                                                                                         \
        type given;                                                                                                              \
        call = name;                                                                                                             \
        given = made;                                                                                                            \
        check(&given, sizeof given, expected);                                                                                   \
    } while (0)

/* ---- memory */

static void allow_writing(int allowed)
{
    writable = allowed;
    if (mprotect(lent, MEMORY, allowed ? PROT_READ | PROT_WRITE : PROT_READ) != 0) {
        perror("read only: mprotect");
        _exit(2);
    }
}

/* The test is worth something only if a store is noticed. */
static void check_protection(void)
{
    call = "a store";
    expecting = 1;
    if (sigsetjmp(expected_fault, 1) == 0) {
        *(volatile uint64_t *)lent->record = 0;
        fails("noticed", 0, 1);
    }
    expecting = 0;
}

#define RECORD lent->record, words
#define BUCKET_TABLES lent->counts, counts, lent->thresholds, thresholds
#define TABLES lent->locations, locations, BUCKET_TABLES

/* A tracker with some references, in which nothing is refused. */
static void begin(void)
{
    static const uint64_t blocks[] = {1, 2, 1, 3, 2};
    const struct rockgingham_settings few = {LIMIT, ROCKGINGHAM_FULL_RATE, WIDTH, BUCKETS, ROCKGINGHAM_HASH_MODULO};
    const struct rockgingham_shape own = {BUCKETS, WIDTH};
    allow_writing(1);
    words = ROCKGINGHAM_RECORD_WORDS;
    locations = LIMIT;
    counts = thresholds = NEEDED;
    settings = few;
    believed = own;
    number = 1;
    location = 2;
    EXPECT(uint64_t, "setup", rockgingham_setup(RECORD, settings, TABLES), ROCKGINGHAM_ACCEPTED);
    for (size_t i = 0; i < sizeof blocks / sizeof blocks[0]; i++) {
        EXPECT(struct rockgingham_answer, "refer", rockgingham_refer(RECORD, blocks[i], TABLES), ROCKGINGHAM_ACCEPTED);
    }
}

/* Writes the events that stand for what is asked, and lets nothing be written from here on. */
static void end(void)
{
    EXPECT(struct rockgingham_written, "write location",
           rockgingham_write_location(location, lent->location_event, sizeof lent->location_event), ROCKGINGHAM_ACCEPTED);
    EXPECT(struct rockgingham_written, "write span",
           rockgingham_write_span(location * 4096, SPAN, lent->span_event, sizeof lent->span_event), ROCKGINGHAM_ACCEPTED);
    EXPECT(struct rockgingham_written, "write a span of length 0",
           rockgingham_write_span(UINT64_MAX, 0, lent->empty_event, sizeof lent->empty_event), ROCKGINGHAM_ACCEPTED);
    EXPECT(struct rockgingham_written, "write restart",
           rockgingham_write_restart(lent->restart_event, sizeof lent->restart_event), ROCKGINGHAM_ACCEPTED);
    EXPECT(struct rockgingham_written, "write setup",
           rockgingham_write_setup((uint32_t)settings.limit, (uint32_t)settings.start, (uint32_t)settings.width,
                                   (uint32_t)settings.buckets, (uint8_t)settings.hash_kind, lent->setup_event,
                                   sizeof lent->setup_event),
           ROCKGINGHAM_ACCEPTED);
    memset(lent->overrun_event, 0xff, sizeof lent->overrun_event);
    lent->overrun_event[0] = ROCKGINGHAM_EVENT_SPAN;
    lent->unknown_event[0] = ROCKGINGHAM_EVENT_SETUP + 1;
    allow_writing(0);
}

/* ---- states in which calls are refused */

static void nothing(void)
{
}

static void no_words(void)
{
    words = 0;
}

static void one_word_too_few(void)
{
    words = ROCKGINGHAM_RECORD_WORDS - 1;
}

static void torn_setting(void)
{
    lent->record[ROCKGINGHAM_WORD_WIDTH] = 0;
}

static void torn_live(void)
{
    lent->record[ROCKGINGHAM_WORD_LIVE] = LIMIT + 1;
}

static void torn_threshold(void)
{
    lent->record[ROCKGINGHAM_WORD_THRESHOLD] = ROCKGINGHAM_FULL_RATE + 1;
}

static void torn_sampled(void)
{
    lent->record[ROCKGINGHAM_WORD_SAMPLED] = lent->record[ROCKGINGHAM_WORD_REFERENCES] + 1;
}

static void torn_references(void)
{
    lent->record[ROCKGINGHAM_WORD_REFERENCES] = (uint64_t)UINT32_MAX + 1;
}

static void full(void)
{
    lent->record[ROCKGINGHAM_WORD_REFERENCES] = UINT32_MAX;
}

static void short_locations(void)
{
    locations--;
}

static void short_counts(void)
{
    counts--;
}

static void short_thresholds(void)
{
    thresholds--;
}

/* Location 2 is the latest, so that it would be recorded in bucket 0. */
static void torn_bucket(void)
{
    lent->thresholds[0] = 0;
}

static void torn_first(void)
{
    location = 9;
    lent->counts[FIRST] = 256 * lent->record[ROCKGINGHAM_WORD_REFERENCES] + 1;
}

static void torn_sum(void)
{
    lent->counts[BUCKETS] = 256 * lent->record[ROCKGINGHAM_WORD_REFERENCES];
}

static void stale_buckets(void)
{
    believed.buckets++;
}

static void stale_width(void)
{
    believed.width++;
}

static void point_above(void)
{
    number = BUCKETS + 1;
}

static void empty(void)
{
    memset(lent->counts, 0, sizeof lent->counts);
}

static void setting_out_of_range(void)
{
    settings.limit = 8193;
}

static void settings_for_longer_tables(void)
{
    settings.buckets = BUCKETS + 1;
}

enum {
    WRITES = ROCKGINGHAM_ACCEPTED, /* the call is accepted and writes, so it is not made */
    SETTINGS = ROCKGINGHAM_REFUSED_SETTINGS,
    SHORT = ROCKGINGHAM_REFUSED_TABLES,
    TORN = ROCKGINGHAM_REFUSED_TORN,
    FULL = ROCKGINGHAM_REFUSED_FULL,
    STALE = ROCKGINGHAM_REFUSED_STALE,
    ABOVE = ROCKGINGHAM_REFUSED_POINT,
    EMPTY = ROCKGINGHAM_REFUSED_EMPTY,
    OVERRUN = ROCKGINGHAM_REFUSED_OVERRUN,
    ANSWERED = ROCKGINGHAM_ACCEPTED
};

static const struct {
    const char *name;
    void (*make)(void);
    uint64_t setup, restart, refer, point; /* what these calls, and the events that stand for them, must answer */
} states[] = {
    {"clean", nothing, WRITES, WRITES, WRITES, ANSWERED},
    {"no words", no_words, SHORT, SHORT, SHORT, SHORT},
    {"one word too few", one_word_too_few, SHORT, SHORT, SHORT, SHORT},
    {"torn setting", torn_setting, WRITES, TORN, TORN, TORN},
    {"torn live number", torn_live, WRITES, TORN, TORN, TORN},
    {"torn threshold", torn_threshold, WRITES, TORN, TORN, TORN},
    {"torn sampled", torn_sampled, WRITES, TORN, TORN, TORN},
    {"torn references", torn_references, WRITES, TORN, TORN, TORN},
    {"full", full, WRITES, WRITES, FULL, ANSWERED},
    {"short locations", short_locations, SHORT, SHORT, SHORT, ANSWERED},
    {"short counts", short_counts, SHORT, SHORT, SHORT, SHORT},
    {"short thresholds", short_thresholds, SHORT, SHORT, SHORT, SHORT},
    {"torn bucket", torn_bucket, WRITES, WRITES, TORN, TORN},
    {"torn bucket of first references", torn_first, WRITES, WRITES, TORN, TORN},
    {"torn sum", torn_sum, WRITES, WRITES, WRITES, TORN},
    {"stale buckets", stale_buckets, WRITES, WRITES, WRITES, STALE},
    {"stale width", stale_width, WRITES, WRITES, WRITES, STALE},
    {"point above", point_above, WRITES, WRITES, WRITES, ABOVE},
    {"empty", empty, WRITES, WRITES, WRITES, EMPTY},
    {"setting out of range", setting_out_of_range, SETTINGS, WRITES, WRITES, ANSWERED},
    {"settings for longer tables", settings_for_longer_tables, SHORT, WRITES, WRITES, ANSWERED},
};

/* ---- the calls */

/* An event whose call is refused, applied and fed. */
static void refuse_event(const char *name, const uint8_t *bytes, size_t length, uint64_t expected)
{
    EXPECT(struct rockgingham_applied, name, rockgingham_apply(RECORD, bytes, length, TABLES), expected);
    EXPECT(struct rockgingham_fed, name, rockgingham_feed(RECORD, bytes, length, TABLES), expected);
}

static void refuse_calls(uint64_t setup, uint64_t restart, uint64_t refer)
{
    if (setup != WRITES) {
        EXPECT(uint64_t, "setup", rockgingham_setup(RECORD, settings, TABLES), setup);
        refuse_event("setup event", lent->setup_event, sizeof lent->setup_event, setup);
    }
    if (restart != WRITES) {
        EXPECT(uint64_t, "restart", rockgingham_restart(RECORD, TABLES), restart);
        refuse_event("restart event", lent->restart_event, sizeof lent->restart_event, restart);
    }
    if (refer != WRITES) {
        EXPECT(struct rockgingham_answer, "refer", rockgingham_refer(RECORD, location, TABLES), refer);
        refuse_event("location event", lent->location_event, sizeof lent->location_event, refer);
        EXPECT(uint64_t, "refer span", rockgingham_refer_span(RECORD, location * 4096, SPAN, TABLES), refer);
        refuse_event("span event", lent->span_event, sizeof lent->span_event, refer);
    }
}

/* I/O past the last byte, and of length 0 with too few words. For refer_span the last byte comes first, for an event the words. */
static void refuse_spans(void)
{
    const int few = words < ROCKGINGHAM_RECORD_WORDS;
    EXPECT(uint64_t, "refer past the last byte", rockgingham_refer_span(RECORD, UINT64_MAX, 2, TABLES), OVERRUN);
    refuse_event("event past the last byte", lent->overrun_event, sizeof lent->overrun_event, few ? SHORT : OVERRUN);
    if (few) {
        EXPECT(uint64_t, "refer with length 0", rockgingham_refer_span(RECORD, UINT64_MAX, 0, TABLES), SHORT);
        refuse_event("event of length 0", lent->empty_event, sizeof lent->empty_event, SHORT);
    }
}

static void ask(uint64_t point)
{
    EXPECT(struct rockgingham_point, "point", rockgingham_point(RECORD, believed, number, BUCKET_TABLES), point);
    EXPECT(struct rockgingham_plot, "plot", rockgingham_plot(RECORD, believed, number, BUCKET_TABLES), point);
}

/* An event that cannot be read is refused by apply, and by feed if it is not just incomplete. Too few words come first. */
static void refuse_unreadable(void)
{
    const int few = words < ROCKGINGHAM_RECORD_WORDS;
    const uint64_t unread = few ? SHORT : ROCKGINGHAM_REFUSED_SHORT, fed = few ? SHORT : ROCKGINGHAM_ACCEPTED;
    const size_t incomplete = sizeof lent->setup_event - 1;
    refuse_event("unknown event", lent->unknown_event, sizeof lent->unknown_event, few ? SHORT : ROCKGINGHAM_REFUSED_KIND);
    EXPECT(struct rockgingham_applied, "apply no bytes", rockgingham_apply(RECORD, lent->setup_event, 0, TABLES), unread);
    EXPECT(struct rockgingham_applied, "apply too few bytes", rockgingham_apply(RECORD, lent->setup_event, incomplete, TABLES),
           unread);
    EXPECT(struct rockgingham_fed, "feed no bytes", rockgingham_feed(RECORD, lent->setup_event, 0, TABLES), fed);
    EXPECT(struct rockgingham_fed, "feed too few bytes", rockgingham_feed(RECORD, lent->setup_event, incomplete, TABLES), fed);
}

static void read_and_write(void)
{
    uint8_t *buffer = lent->setup_event;
    const size_t incomplete = sizeof lent->setup_event - 1;
    EXPECT(struct rockgingham_event, "read", rockgingham_read(buffer, sizeof lent->setup_event), ROCKGINGHAM_ACCEPTED);
    EXPECT(struct rockgingham_event, "read no bytes", rockgingham_read(buffer, 0), ROCKGINGHAM_REFUSED_SHORT);
    EXPECT(struct rockgingham_event, "read too few bytes", rockgingham_read(buffer, incomplete), ROCKGINGHAM_REFUSED_SHORT);
    EXPECT(struct rockgingham_event, "read an unknown kind", rockgingham_read(lent->unknown_event, 1), ROCKGINGHAM_REFUSED_KIND);
    EXPECT(struct rockgingham_written, "write location", rockgingham_write_location(7, buffer, ROCKGINGHAM_LENGTH_LOCATION - 1),
           SHORT);
    EXPECT(struct rockgingham_event, "read past the last byte",
           rockgingham_read(lent->overrun_event, sizeof lent->overrun_event), OVERRUN);
    EXPECT(struct rockgingham_written, "write span", rockgingham_write_span(7, 7, buffer, ROCKGINGHAM_LENGTH_SPAN - 1), SHORT);
    EXPECT(struct rockgingham_written, "write past the last byte",
           rockgingham_write_span(UINT64_MAX, 2, buffer, ROCKGINGHAM_LENGTH_SPAN), OVERRUN);
    EXPECT(struct rockgingham_written, "write past the last byte, too few bytes",
           rockgingham_write_span(UINT64_MAX, 2, buffer, ROCKGINGHAM_LENGTH_SPAN - 1), OVERRUN);
    EXPECT(struct rockgingham_written, "write restart", rockgingham_write_restart(buffer, ROCKGINGHAM_LENGTH_RESTART - 1), SHORT);
    EXPECT(struct rockgingham_written, "write setup",
           rockgingham_write_setup(7, 7, 7, 7, 1, buffer, ROCKGINGHAM_LENGTH_SETUP - 1), SHORT);
}

int main(void)
{
    struct sigaction fault;
    setvbuf(stdout, NULL, _IOLBF, 0);
    memset(&fault, 0, sizeof fault);
    fault.sa_handler = on_fault;
    sigaction(SIGSEGV, &fault, NULL);
    sigaction(SIGBUS, &fault, NULL);
    lent = mmap(NULL, MEMORY, PROT_READ | PROT_WRITE, MAP_PRIVATE | MAP_ANONYMOUS, -1, 0);
    if (lent == MAP_FAILED) {
        perror("read only: mmap");
        return 2;
    }
    for (size_t i = 0; i < sizeof states / sizeof states[0]; i++) {
        state = states[i].name;
        begin();
        states[i].make();
        end();
        check_protection();
        refuse_calls(states[i].setup, states[i].restart, states[i].refer);
        refuse_spans();
        ask(states[i].point);
        refuse_unreadable();
        read_and_write();
    }
    if (!wrong) {
        printf("read only: %u calls, none of which stored anything\n", calls);
    }
    return wrong;
}
