/*
 * Every function of include/rockgingham.h, called from C as it is declared there. Document 01's case a is written as a trace, and
 * measured in three ways: fed in two pieces, applied event by event, and read with a call for each event. Each time the points
 * must be the document's.
 */
#include "rockgingham.h"

#include <stdio.h>
#include <string.h>

enum { LIMIT = 4, WIDTH = 1, BUCKETS = 4, BEYOND = 3, TOTAL = 6 * 256 };

/* A record that is lent with more words than it needs, and tables that are just long enough. */
struct tracker {
    uint64_t record[ROCKGINGHAM_RECORD_WORDS + BEYOND];
    uint64_t locations[ROCKGINGHAM_LOCATIONS_NEEDED(LIMIT)];
    uint64_t counts[ROCKGINGHAM_COUNTS_NEEDED(BUCKETS)];
    uint32_t thresholds[ROCKGINGHAM_THRESHOLDS_NEEDED(BUCKETS)];
};

#define LENGTH(array) (sizeof(array) / sizeof((array)[0]))
#define RECORD(t) (t)->record, LENGTH((t)->record)
#define BUCKET_TABLES(t) (t)->counts, LENGTH((t)->counts), (t)->thresholds, LENGTH((t)->thresholds)
#define TABLES(t) (t)->locations, LENGTH((t)->locations), BUCKET_TABLES(t)

static const struct rockgingham_settings settings = {LIMIT, ROCKGINGHAM_FULL_RATE, WIDTH, BUCKETS, ROCKGINGHAM_HASH_MODULO};
static const struct rockgingham_shape shape = {BUCKETS, WIDTH};
static const char *way = "";
static int wrong;

static void expect(const char *what, uint64_t got, uint64_t expected)
{
    if (got != expected) {
        printf("header: %s%s: %llu, expected %llu\n", way, what, (unsigned long long)got, (unsigned long long)expected);
        wrong = 1;
    }
}

/* ---- writing */

static size_t put(const char *what, struct rockgingham_written written, size_t length)
{
    expect(what, written.refusal, ROCKGINGHAM_ACCEPTED);
    expect(what, written.length, length);
    return length;
}

static size_t write_trace(uint8_t *to, size_t length)
{
    static const uint64_t blocks[] = {1, 2, 1, 3, 2};
    const uint32_t start = ROCKGINGHAM_FULL_RATE;
    size_t at = put("write setup", rockgingham_write_setup(LIMIT, start, WIDTH, BUCKETS, ROCKGINGHAM_HASH_MODULO, to, length),
                    ROCKGINGHAM_LENGTH_SETUP);
    at += put("write restart", rockgingham_write_restart(to + at, length - at), ROCKGINGHAM_LENGTH_RESTART);
    for (size_t i = 0; i < LENGTH(blocks); i++) {
        at += put("write location", rockgingham_write_location(blocks[i], to + at, length - at), ROCKGINGHAM_LENGTH_LOCATION);
    }
    return at + put("write span", rockgingham_write_span(2 * 4096 + 17, 512, to + at, length - at), ROCKGINGHAM_LENGTH_SPAN);
}

static void write_into_too_few_bytes(void)
{
    uint8_t buffer[ROCKGINGHAM_LENGTH_SETUP];
    struct rockgingham_written written[] = {
        rockgingham_write_location(7, buffer, ROCKGINGHAM_LENGTH_LOCATION - 1),
        rockgingham_write_span(7, 7, buffer, ROCKGINGHAM_LENGTH_SPAN - 1),
        rockgingham_write_restart(buffer, 0),
        rockgingham_write_setup(7, 7, 7, 7, 7, buffer, ROCKGINGHAM_LENGTH_SETUP - 1),
    };
    for (size_t i = 0; i < LENGTH(written); i++) {
        expect("write into too few bytes", written[i].refusal, ROCKGINGHAM_REFUSED_TABLES);
        expect("length of a refused write", written[i].length, 0);
    }
}

/* ---- the three ways */

/* The first piece ends inside an event, which is fed again with the second. */
static void feed(struct tracker *t, const uint8_t *bytes, size_t length)
{
    const size_t whole = ROCKGINGHAM_LENGTH_SETUP + ROCKGINGHAM_LENGTH_RESTART + ROCKGINGHAM_LENGTH_LOCATION;
    struct rockgingham_fed fed = rockgingham_feed(RECORD(t), bytes, whole + 2, TABLES(t));
    expect("first piece", fed.refusal, ROCKGINGHAM_ACCEPTED);
    expect("taken of the first piece", fed.taken, whole);
    expect("first piece incomplete", fed.incomplete, 1);
    fed = rockgingham_feed(RECORD(t), bytes + whole, length - whole, TABLES(t));
    expect("second piece", fed.refusal, ROCKGINGHAM_ACCEPTED);
    expect("taken of the second piece", fed.taken, length - whole);
    expect("second piece incomplete", fed.incomplete, 0);
}

static size_t length_of(uint8_t kind)
{
    switch (kind) {
    case ROCKGINGHAM_EVENT_LOCATION:
        return ROCKGINGHAM_LENGTH_LOCATION;
    case ROCKGINGHAM_EVENT_SPAN:
        return ROCKGINGHAM_LENGTH_SPAN;
    case ROCKGINGHAM_EVENT_RESTART:
        return ROCKGINGHAM_LENGTH_RESTART;
    default:
        return ROCKGINGHAM_LENGTH_SETUP;
    }
}

static void apply(struct tracker *t, const uint8_t *bytes, size_t length)
{
    for (size_t at = 0; at < length; at += length_of(bytes[at])) {
        struct rockgingham_applied applied = rockgingham_apply(RECORD(t), bytes + at, length - at, TABLES(t));
        expect("apply", applied.refusal, ROCKGINGHAM_ACCEPTED);
        expect("taken", applied.taken, length_of(bytes[at]));
    }
}

static uint64_t call(struct tracker *t, const struct rockgingham_event *event)
{
    switch (event->kind) {
    case ROCKGINGHAM_EVENT_LOCATION:
        return rockgingham_refer(RECORD(t), event->location, TABLES(t)).refusal;
    case ROCKGINGHAM_EVENT_SPAN:
        return rockgingham_refer_span(RECORD(t), event->offset, (uint32_t)event->length, TABLES(t));
    case ROCKGINGHAM_EVENT_RESTART:
        return rockgingham_restart(RECORD(t), TABLES(t));
    default:
        return rockgingham_setup(RECORD(t), event->settings, TABLES(t));
    }
}

static void read_and_call(struct tracker *t, const uint8_t *bytes, size_t length)
{
    for (size_t at = 0; at < length; at += length_of(bytes[at])) {
        struct rockgingham_event event = rockgingham_read(bytes + at, length - at);
        expect("read", event.refusal, ROCKGINGHAM_ACCEPTED);
        expect("kind", event.kind, bytes[at]);
        expect("taken", event.taken, length_of(bytes[at]));
        expect("call", call(t, &event), ROCKGINGHAM_ACCEPTED);
    }
}

/* ---- what they leave */

static void check_record(const struct tracker *t)
{
    expect("limit", t->record[ROCKGINGHAM_WORD_LIMIT], LIMIT);
    expect("start", t->record[ROCKGINGHAM_WORD_START], ROCKGINGHAM_FULL_RATE);
    expect("width", t->record[ROCKGINGHAM_WORD_WIDTH], WIDTH);
    expect("buckets", t->record[ROCKGINGHAM_WORD_BUCKETS], BUCKETS);
    expect("hash kind", t->record[ROCKGINGHAM_WORD_HASH_KIND], ROCKGINGHAM_HASH_MODULO);
    expect("threshold", t->record[ROCKGINGHAM_WORD_THRESHOLD], ROCKGINGHAM_FULL_RATE);
    expect("live", t->record[ROCKGINGHAM_WORD_LIVE], 3);
    expect("references", t->record[ROCKGINGHAM_WORD_REFERENCES], 6);
    expect("sampled", t->record[ROCKGINGHAM_WORD_SAMPLED], 6);
    for (size_t i = ROCKGINGHAM_RECORD_WORDS; i < LENGTH(t->record); i++) {
        expect("word beyond the record", t->record[i], 1000 + i);
    }
}

static void check_points(const struct tracker *t)
{
    static const uint64_t misses[] = {1536, 1280, 1024, 768, 768};
    for (uint64_t number = 0; number <= BUCKETS; number++) {
        struct rockgingham_point point = rockgingham_point(RECORD(t), shape, number, BUCKET_TABLES(t));
        struct rockgingham_plot plot = rockgingham_plot(RECORD(t), shape, number, BUCKET_TABLES(t));
        expect("point", point.refusal, ROCKGINGHAM_ACCEPTED);
        expect("size", point.size, number * WIDTH);
        expect("hits", point.hits, TOTAL - misses[number]);
        expect("misses", point.misses, misses[number]);
        expect("total", point.total, TOTAL);
        expect("plot", plot.refusal, ROCKGINGHAM_ACCEPTED);
        expect("pair", plot.size == (double)number && plot.ratio == (double)misses[number] / TOTAL, 1);
    }
    expect("point 5", rockgingham_point(RECORD(t), shape, BUCKETS + 1, BUCKET_TABLES(t)).refusal, ROCKGINGHAM_REFUSED_POINT);
}

typedef void measuring(struct tracker *t, const uint8_t *bytes, size_t length);

static void measure(const char *name, measuring *trace, const uint8_t *bytes, size_t length)
{
    struct tracker tracker;
    memset(&tracker, 0, sizeof tracker);
    for (size_t i = ROCKGINGHAM_RECORD_WORDS; i < LENGTH(tracker.record); i++) {
        tracker.record[i] = 1000 + i;
    }
    way = name;
    trace(&tracker, bytes, length);
    check_record(&tracker);
    check_points(&tracker);
    way = "";
}

/* ---- single calls */

static void check_replies(void)
{
    static struct tracker tracker;
    struct tracker *t = &tracker;
    struct rockgingham_answer answer;
    struct rockgingham_settings low = settings;
    low.start = 16;
    expect("setup", rockgingham_setup(RECORD(t), low, TABLES(t)), ROCKGINGHAM_ACCEPTED);
    answer = rockgingham_refer(RECORD(t), 16, TABLES(t));
    expect("hash of the threshold", answer.reply, ROCKGINGHAM_REPLY_SKIPPED);
    answer = rockgingham_refer(RECORD(t), 3, TABLES(t));
    expect("first time", answer.reply, ROCKGINGHAM_REPLY_FIRST);
    rockgingham_refer(RECORD(t), 4, TABLES(t));
    answer = rockgingham_refer(RECORD(t), 3, TABLES(t));
    expect("second time", answer.reply, ROCKGINGHAM_REPLY_AGAIN);
    expect("distance", answer.distance, 1);
}

/* Blocks 5 to 7, then 8 to 10, of which 10 is refused 4; past the last byte nothing is counted. */
static void check_spans(void)
{
    static struct tracker tracker;
    struct tracker *t = &tracker;
    uint64_t *references = &t->record[ROCKGINGHAM_WORD_REFERENCES];
    uint64_t before;
    struct rockgingham_settings low = settings;
    low.start = 9;
    expect("setup", rockgingham_setup(RECORD(t), low, TABLES(t)), ROCKGINGHAM_ACCEPTED);
    expect("span", rockgingham_refer_span(RECORD(t), 5 * 4096 + 4095, 4098, TABLES(t)), ROCKGINGHAM_ACCEPTED);
    expect("references of a span", *references, 3);
    expect("latest of a span", t->locations[0], 7);
    expect("span of length 0", rockgingham_refer_span(RECORD(t), UINT64_MAX, 0, TABLES(t)), ROCKGINGHAM_ACCEPTED);
    expect("span past the last byte", rockgingham_refer_span(RECORD(t), UINT64_MAX, 2, TABLES(t)), ROCKGINGHAM_REFUSED_OVERRUN);
    expect("overrun before words", rockgingham_refer_span(t->record, 0, UINT64_MAX, 2, TABLES(t)), ROCKGINGHAM_REFUSED_OVERRUN);
    expect("references afterwards", *references, 3);
    before = *references = UINT32_MAX - 2;
    expect("span, full", rockgingham_refer_span(RECORD(t), 8 * 4096, 3 * 4096, TABLES(t)), ROCKGINGHAM_REFUSED_FULL);
    expect("references of a refused span", *references - before, 2);
    expect("latest of a refused span", t->locations[0], 8);
}

/* Too few words are refused 2 before all else, by setup after 1. Nothing is taken, and nothing changes. */
static void check_few_words(size_t few)
{
    static struct tracker tracker, before;
    struct tracker *t = &tracker;
    const struct rockgingham_settings outside = {8193, 0, 0, 0, 0};
    const uint8_t unknown = 0;
    struct rockgingham_fed fed = rockgingham_feed(t->record, few, &unknown, 0, TABLES(t));
    const uint64_t refusals[] = {
        rockgingham_setup(t->record, few, settings, TABLES(t)),
        rockgingham_restart(t->record, few, TABLES(t)),
        rockgingham_refer(t->record, few, 7, TABLES(t)).refusal,
        rockgingham_refer_span(t->record, few, 7, 7, TABLES(t)),
        rockgingham_refer_span(t->record, few, 7, 0, TABLES(t)),
        rockgingham_point(t->record, few, shape, 9, BUCKET_TABLES(t)).refusal,
        rockgingham_plot(t->record, few, shape, 9, BUCKET_TABLES(t)).refusal,
        rockgingham_apply(t->record, few, &unknown, 1, TABLES(t)).refusal,
        fed.refusal,
    };
    for (size_t i = 0; i < LENGTH(refusals); i++) {
        expect("too few words", refusals[i], ROCKGINGHAM_REFUSED_TABLES);
    }
    expect("taken with too few words", fed.taken + fed.incomplete, 0);
    expect("settings before words", rockgingham_setup(t->record, few, outside, TABLES(t)), ROCKGINGHAM_REFUSED_SETTINGS);
    expect("unchanged", (uint64_t)memcmp(&tracker, &before, sizeof tracker), 0);
}

static void check_reading(void)
{
    const uint8_t bytes[] = {ROCKGINGHAM_EVENT_LOCATION, 0};
    const uint8_t unknown = ROCKGINGHAM_EVENT_SETUP + 1;
    uint8_t span[ROCKGINGHAM_LENGTH_SPAN];
    memset(span, 0xff, sizeof span);
    span[0] = ROCKGINGHAM_EVENT_SPAN;
    expect("read of a span past the last byte", rockgingham_read(span, sizeof span).refusal, ROCKGINGHAM_REFUSED_OVERRUN);
    expect("read of its beginning", rockgingham_read(span, sizeof span - 1).refusal, ROCKGINGHAM_REFUSED_SHORT);
    expect("write of it", rockgingham_write_span(UINT64_MAX, UINT32_MAX, span, 0).refusal, ROCKGINGHAM_REFUSED_OVERRUN);
    expect("read of no bytes", rockgingham_read(bytes, 0).refusal, ROCKGINGHAM_REFUSED_SHORT);
    expect("read of too few bytes", rockgingham_read(bytes, LENGTH(bytes)).refusal, ROCKGINGHAM_REFUSED_SHORT);
    expect("read of an unknown kind", rockgingham_read(&unknown, 1).refusal, ROCKGINGHAM_REFUSED_KIND);
}

int main(void)
{
    uint8_t trace[128];
    size_t length = write_trace(trace, sizeof trace);
    expect("version", rockgingham_version(), ROCKGINGHAM_VERSION);
    expect("hash kind 0", rockgingham_hash(ROCKGINGHAM_HASH_MODULO, ROCKGINGHAM_FULL_RATE + 3), 3);
    expect("hash kind 1", rockgingham_hash(ROCKGINGHAM_HASH_MURMUR, 0), 0);
    write_into_too_few_bytes();
    measure("fed: ", feed, trace, length);
    measure("applied: ", apply, trace, length);
    measure("read: ", read_and_call, trace, length);
    check_replies();
    check_spans();
    for (size_t few = 0; few < ROCKGINGHAM_RECORD_WORDS; few++) {
        check_few_words(few);
    }
    check_reading();
    if (!wrong) {
        printf("header: every function answers as it is declared\n");
    }
    return wrong;
}
