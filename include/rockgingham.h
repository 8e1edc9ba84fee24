/*
 * Rockgingham: miss ratio curves of a storage array's cache, by sampling.
 *
 * The C interface of the static library that `rt lib --cpu x86-64` in crates/driver writes
 * (out/libdriver.a there, for x86-64 Linux).
 *
 * Every function is proved to terminate and to stay inside the memory it is lent. It takes any numbers, and a record, tables and
 * bytes of any length with any contents; no value has to be checked beforehand. A function keeps no state between calls and
 * allocates nothing: all memory is the caller's, lent for the call.
 *
 * EXAMPLE. A tracker that samples every reference, references to the blocks 0, 0 and 1, and point 1 of its curve.
 *
 *     enum { WORDS = ROCKGINGHAM_RECORD_WORDS, NEEDED = ROCKGINGHAM_COUNTS_NEEDED(16) };
 *     static uint64_t record[WORDS], locations[64], counts[NEEDED];
 *     static uint32_t thresholds[NEEDED];
 *     const struct rockgingham_settings settings = {64, ROCKGINGHAM_FULL_RATE, 1, 16, ROCKGINGHAM_HASH_MURMUR};
 *     const struct rockgingham_shape shape = {16, 1};
 *     uint64_t refusal = rockgingham_setup(record, WORDS, settings, locations, 64, counts, NEEDED, thresholds, NEEDED);
 *     for (uint64_t i = 0; i < 3 && refusal == ROCKGINGHAM_ACCEPTED; i++)
 *         refusal = rockgingham_refer(record, WORDS, i / 2, locations, 64, counts, NEEDED, thresholds, NEEDED).refusal;
 *     struct rockgingham_point point = rockgingham_point(record, WORDS, shape, 1, counts, NEEDED, thresholds, NEEDED);
 *     printf("refusal %d, hits %d of %d\n", (int)point.refusal, (int)point.hits, (int)point.total);
 *
 * It prints "refusal 0, hits 256 of 768": in a cache of one block, one of the three references hits.
 *
 * VERSIONS. ROCKGINGHAM_VERSION is raised whenever a declaration of this header changes, or what one means;
 * rockgingham_version() returns the version of the library. The library exports setup, apply and feed, the calls that can set a
 * tracker up, under names that carry the version. So a program that calls one of them and was compiled with another version's
 * header does not link. Structs and the order of words may differ from version to version: rebuild everything that includes
 * this header together. Do not keep a record over a change of version; set up anew. A record that was saved by a version with
 * fewer words, and is lent with those, is refused 2.
 *
 * REFUSALS. Every call that can be refused gives the refusal first: ROCKGINGHAM_ACCEPTED (0) if it did what it was asked, or one
 * of enum rockgingham_refusal. If several apply, it gives the first in the order that the function's comment names. All other
 * fields of what a refused call returns are 0, except `taken` of rockgingham_feed. A refused call stores nothing: no word of a
 * record, no entry of a table, no byte of a buffer, not even the value that is there already. There are two exceptions:
 *   - rockgingham_feed keeps what the events before the refused one did;
 *   - a span stands for several references, made one after the other. If one of them is refused, by rockgingham_refer_span,
 *     rockgingham_apply or rockgingham_feed, those before it stay counted. See rockgingham_refer_span.
 *
 * WHAT THE CALLER MUST GUARANTEE. The proofs begin at the call; these are up to the caller:
 *   - each pointer is valid and aligned for its type, and never null: where there is nothing to lend, pass any object with
 *     length 0;
 *   - each length is the true number of entries that may be read (and written, unless the pointer is to const): 64-bit words of
 *     a record, entries of a table, bytes of a buffer;
 *   - nothing that a call may write overlaps anything else that is passed to the same call;
 *   - while a call runs, no other thread writes to what was passed to it, or reads what the call may write;
 *   - for rockgingham_plot, the processor rounds to nearest, as it does unless a program asks for something else (fesetround).
 * Everything else is judged by the functions themselves. A damaged record or table never leads outside memory or into an
 * endless loop: each call still returns what docs/RULES.md prescribes for what it was handed.
 *
 * WHAT IT NEEDS AND COSTS. The library calls memmove, and its code uses vector registers (SSE2): it is for user space, or for a
 * kernel that saves those registers around each call. It takes no lock and makes no system call. Time, with S the sample limit
 * and B the buckets:
 *   - at most in proportion to B: setup, restart, a point, a plot;
 *   - at most in proportion to S: a reference that is sampled;
 *   - a short time, whatever S and B are: a reference that is Skipped, the hash, the version, reading and writing an event;
 *   - a span: each of its references as above. A single span can stand for up to 2^20 + 1 references;
 *   - apply and feed: each event as the call that it stands for.
 */
#ifndef ROCKGINGHAM_H
#define ROCKGINGHAM_H

#include <stddef.h>
#include <stdint.h>

#ifdef __cplusplus
extern "C" {
#endif

#define ROCKGINGHAM_VERSION 2

/* The names that carry the version. */
#define ROCKGINGHAM_JOIN(name, version) name##_v##version
#define ROCKGINGHAM_VERSIONED(name, version) ROCKGINGHAM_JOIN(name, version)
#define rockgingham_setup ROCKGINGHAM_VERSIONED(rockgingham_setup, ROCKGINGHAM_VERSION)
#define rockgingham_apply ROCKGINGHAM_VERSIONED(rockgingham_apply, ROCKGINGHAM_VERSION)
#define rockgingham_feed ROCKGINGHAM_VERSIONED(rockgingham_feed, ROCKGINGHAM_VERSION)

/* The version of the library. */
uint64_t rockgingham_version(void);

enum rockgingham_refusal {
    ROCKGINGHAM_ACCEPTED = 0,         /* not refused */
    ROCKGINGHAM_REFUSED_SETTINGS = 1, /* a setting is outside its range */
    ROCKGINGHAM_REFUSED_TABLES = 2,   /* the record, a table, or the buffer for an event is shorter than needed */
    ROCKGINGHAM_REFUSED_TORN = 3,     /* record: a setting out of range, live above the limit, threshold above the start, sampled
                                         above references, or references above 2^32 - 1. Bucket: threshold 0, below the record's
                                         or above 2^24, or count above 256 times the references. At a point also: the counts sum
                                         above that */
    ROCKGINGHAM_REFUSED_FULL = 4,     /* the record has 2^32 - 1 references already */
    ROCKGINGHAM_REFUSED_STALE = 5,    /* the believed buckets or width differ from the tracker's */
    ROCKGINGHAM_REFUSED_POINT = 6,    /* the point's number is above the buckets */
    ROCKGINGHAM_REFUSED_SHORT = 7,    /* the event is incomplete, or there are no bytes at all */
    ROCKGINGHAM_REFUSED_KIND = 8,     /* the event's kind byte is 0 or above 4 */
    ROCKGINGHAM_REFUSED_EMPTY = 9,    /* the curve's total is 0 */
    ROCKGINGHAM_REFUSED_OVERRUN = 10  /* the length of a span is not 0, and offset + length - 1 is above 2^64 - 1 */
};

/*
 * The record: what a tracker holds beside its tables, as 64-bit words in this order. It is lent with its number of words, as a
 * table is with its entries. It may have more words than ROCKGINGHAM_RECORD_WORDS; those are never read or written. If it has
 * fewer, it cannot be judged: every call refuses it 2 before all else, but setup only after 1, and refer_span only after 10. The
 * words may hold anything: the calls that use them as a record refuse a torn one 3. Only setup, restart, refer, refer_span, apply
 * and feed change it.
 */
enum rockgingham_word {
    ROCKGINGHAM_WORD_LIMIT,      /* the five settings, after defaults */
    ROCKGINGHAM_WORD_START,
    ROCKGINGHAM_WORD_WIDTH,
    ROCKGINGHAM_WORD_BUCKETS,
    ROCKGINGHAM_WORD_HASH_KIND,
    ROCKGINGHAM_WORD_THRESHOLD,  /* the threshold in force */
    ROCKGINGHAM_WORD_LIVE,       /* the number of live locations */
    ROCKGINGHAM_WORD_REFERENCES, /* references since the last fresh start */
    ROCKGINGHAM_WORD_SAMPLED,    /* and how many of them were sampled */
    ROCKGINGHAM_RECORD_WORDS     /* how many words a record has */
};

/* The starting threshold at which every reference is sampled, until the threshold falls. */
#define ROCKGINGHAM_FULL_RATE 16777216

enum rockgingham_hash_kind {
    ROCKGINGHAM_HASH_MODULO = 0, /* the location modulo 2^24: for benches and examples */
    ROCKGINGHAM_HASH_MURMUR = 1  /* MurmurHash3's 64-bit finaliser of the location, modulo 2^24 */
};

/* The settings. 0 stands for the default, except for the hash kind, where 0 is a kind. */
struct rockgingham_settings {
    uint64_t limit;     /* sample limit S: 1 to 8,192, default 1,024 */
    uint64_t start;     /* starting threshold T0: 1 to ROCKGINGHAM_FULL_RATE, default 1,677,721 (about one location in ten) */
    uint64_t width;     /* bucket width W in blocks: 1 to 2^32 - 1, default 1 */
    uint64_t buckets;   /* buckets B: 1 to 10,000, default 256 */
    uint64_t hash_kind; /* enum rockgingham_hash_kind */
};

/*
 * The hash of a location, 0 to 2^24 - 1. A reference is sampled if the hash is below the threshold. Any kind but 0 hashes as
 * kind 1 does; setup accepts only 0 and 1. It cannot be refused.
 */
uint64_t rockgingham_hash(uint64_t hash_kind, uint64_t location);

/*
 * The lent tables, for settings after defaults:
 *   locations    at least ROCKGINGHAM_LOCATIONS_NEEDED(limit) entries: the live locations, latest first
 *   counts       at least ROCKGINGHAM_COUNTS_NEEDED(buckets) entries, in units of 1/256 reference. Entry `buckets` counts the
 *                references whose distance is past the last bucket ("far"), the next entry the first references ("first")
 *   thresholds   at least ROCKGINGHAM_THRESHOLDS_NEEDED(buckets) entries: for each count, the threshold that it was last
 *                recorded under
 * Entries past the needed ones are never changed. Entries of `locations` from the record's live number on have no meaning.
 */
#define ROCKGINGHAM_LOCATIONS_NEEDED(limit) ((size_t)(limit))
#define ROCKGINGHAM_COUNTS_NEEDED(buckets) ((size_t)(buckets) + 2)
#define ROCKGINGHAM_THRESHOLDS_NEEDED(buckets) ((size_t)(buckets) + 2)

/*
 * A fresh start with these settings, zeros standing for defaults. Writes the record, the needed counts and the needed
 * thresholds. Of `locations` only the length matters. The old contents of record and tables are not judged.
 * Returns the refusal: 1, 2.
 */
uint64_t rockgingham_setup(uint64_t *record, size_t record_words, struct rockgingham_settings settings, const uint64_t *locations,
                           size_t locations_length, uint64_t *counts, size_t counts_length, uint32_t *thresholds,
                           size_t thresholds_length);

/*
 * A fresh start with the record's own settings.
 * Returns the refusal: 2 for the record's words, 3 for the record, 2.
 */
uint64_t rockgingham_restart(uint64_t *record, size_t record_words, const uint64_t *locations, size_t locations_length,
                             uint64_t *counts, size_t counts_length, uint32_t *thresholds, size_t thresholds_length);

enum rockgingham_reply {
    ROCKGINGHAM_REPLY_SKIPPED = 0, /* not sampled */
    ROCKGINGHAM_REPLY_AGAIN = 1,   /* sampled, and in the list of live locations */
    ROCKGINGHAM_REPLY_FIRST = 2    /* sampled, and not in that list */
};

struct rockgingham_answer {
    uint64_t refusal;
    uint64_t reply;    /* enum rockgingham_reply */
    uint64_t distance; /* Again: its place in the list of live locations, counted from 0. Otherwise 0 */
};

/*
 * One reference to a location.
 * Refusals: 2 for the record's words, 3 for the record, 2, 4, then 3 for the single bucket that it would record in.
 */
struct rockgingham_answer rockgingham_refer(uint64_t *record, size_t record_words, uint64_t location, uint64_t *locations,
                                            size_t locations_length, uint64_t *counts, size_t counts_length,
                                            uint32_t *thresholds, size_t thresholds_length);

/*
 * One I/O: a reference to each block that holds one of its bytes, from offset / 4,096 to (offset + length - 1) / 4,096, in rising
 * order. A single I/O can stand for up to 2^20 + 1 references. A length of 0 makes none; then no table is judged, and of the
 * record only the number of words.
 *
 * The references are made one after the other, each as by rockgingham_refer, until one is refused. The refused reference changes
 * nothing and ends the call. Those before it stay counted: the record and the tables are left exactly as those alone would leave
 * them. After the first reference, only 4, and 3 for a bucket, can occur. The refusal does not say how many references were made.
 * The record does: subtract the value that word ROCKGINGHAM_WORD_REFERENCES had before the call from the value it has now. If any
 * were made, do not pass the same I/O again: they would be counted twice.
 *
 * Returns the refusal: 10, with nothing changed; 2 for the record's words; then, for each reference, those of rockgingham_refer.
 */
uint64_t rockgingham_refer_span(uint64_t *record, size_t record_words, uint64_t offset, uint32_t length, uint64_t *locations,
                                size_t locations_length, uint64_t *counts, size_t counts_length, uint32_t *thresholds,
                                size_t thresholds_length);

/*
 * The shape that the caller believes the curve to have: buckets and width after defaults, as they stand in the record after the
 * setup that the caller knows of. Keep it with the points that were planned with it, and pass it with each: if the tracker has
 * meanwhile been set up with other buckets or another width, the point is refused 5, whatever its number. Only 2, for too few
 * words or entries, and 3, for a torn record, come before that. A tracker that was set up anew with the same buckets and width
 * cannot be told from the old one: its points are not refused 5.
 */
struct rockgingham_shape {
    uint64_t buckets;
    uint64_t width;
};

struct rockgingham_point {
    uint64_t refusal;
    uint64_t size;   /* in blocks: the point's number times the width */
    uint64_t hits;   /* hits, misses and total in units of 1/256 reference */
    uint64_t misses;
    uint64_t total;
};

/*
 * Point `number` of the curve, 0 to buckets.
 * Refusals: 2 for the record's words, 3 for the record, 2, 5, 6, 3 for the buckets, 9.
 */
struct rockgingham_point rockgingham_point(const uint64_t *record, size_t record_words, struct rockgingham_shape believed,
                                           uint64_t number, const uint64_t *counts, size_t counts_length,
                                           const uint32_t *thresholds, size_t thresholds_length);

struct rockgingham_plot {
    uint64_t refusal;
    double size;
    double ratio; /* misses divided by total, rounded once, to nearest, ties to even */
};

/*
 * The same point as a pair of doubles.
 * Refusals: those of rockgingham_point, in that order.
 */
struct rockgingham_plot rockgingham_plot(const uint64_t *record, size_t record_words, struct rockgingham_shape believed,
                                         uint64_t number, const uint64_t *counts, size_t counts_length,
                                         const uint32_t *thresholds, size_t thresholds_length);

/*
 * Trace events: one byte of kind, then a body whose length depends on the kind. Numbers are little-endian.
 *   1 location   8 bytes: location                                    one reference
 *   2 span       12: byte offset (8), length (4)                      one I/O, as by rockgingham_refer_span
 *   3 restart    none                                                 fresh start, same settings
 *   4 setup      17: limit, start, width, buckets (4 each), hash kind fresh start, these settings
 */
enum rockgingham_event_kind {
    ROCKGINGHAM_EVENT_LOCATION = 1,
    ROCKGINGHAM_EVENT_SPAN = 2,
    ROCKGINGHAM_EVENT_RESTART = 3,
    ROCKGINGHAM_EVENT_SETUP = 4
};

/* How many bytes an event has, with its kind. */
enum rockgingham_event_length {
    ROCKGINGHAM_LENGTH_LOCATION = 9,
    ROCKGINGHAM_LENGTH_SPAN = 13,
    ROCKGINGHAM_LENGTH_RESTART = 1,
    ROCKGINGHAM_LENGTH_SETUP = 18
};

struct rockgingham_applied {
    uint64_t refusal;
    uint64_t taken; /* how many bytes the event has */
};

/*
 * Applies the first event of the bytes: makes the references or the fresh start that it stands for, if it stands for any. If a
 * span is refused, the references before the refused one stay counted, as by rockgingham_refer_span. If any were made, do not
 * apply the same event again: they would be counted twice.
 * Refusals: 2 for the record's words; those of rockgingham_read; those of the call that the event stands for. A span of length 0
 * judges no record and no table.
 */
struct rockgingham_applied rockgingham_apply(uint64_t *record, size_t record_words, const uint8_t *bytes, size_t bytes_length,
                                             uint64_t *locations, size_t locations_length, uint64_t *counts,
                                             size_t counts_length, uint32_t *thresholds, size_t thresholds_length);

struct rockgingham_fed {
    uint64_t refusal;
    uint64_t taken;      /* how many bytes were taken, all of them whole events; given with a refusal too */
    uint64_t incomplete; /* 1 if the call was accepted and the bytes after those taken are the beginning of an event, else 0 */
};

/*
 * Applies event after event of a piece of a trace, until the bytes end, the rest of them is the beginning of an event, or an
 * event is refused. An incomplete event is not refused and not taken: feed its bytes again with those that follow.
 *
 * A refused event is not taken: it begins right after the bytes taken. The record and the tables are left exactly as feeding only
 * the bytes taken would leave them, unless the event is a span: then its references before the refused one stay counted too, as
 * by rockgingham_refer_span. If any of them were made, do not feed that event again: they would be counted twice. The record's
 * references count them together with those of the events taken since the last fresh start.
 *
 * Refusals: 2 for the record's words, with no bytes too, and then nothing is taken; 8; 10; those of the call that an event stands
 * for.
 */
struct rockgingham_fed rockgingham_feed(uint64_t *record, size_t record_words, const uint8_t *bytes, size_t bytes_length,
                                        uint64_t *locations, size_t locations_length, uint64_t *counts, size_t counts_length,
                                        uint32_t *thresholds, size_t thresholds_length);

struct rockgingham_event {
    uint64_t refusal;
    uint64_t kind;                        /* enum rockgingham_event_kind */
    uint64_t taken;                       /* how many bytes the event has */
    uint64_t location;                    /* of a location event; 0 for the others */
    uint64_t offset;                      /* of a span */
    uint64_t length;                      /* of a span */
    struct rockgingham_settings settings; /* of a setup event, as they stand in it: they are judged by setup, not here */
};

/*
 * Reads the first event of the bytes. Numbers that its kind does not have are 0.
 * Refusals: 7 if there are no bytes, 8, 7, 10 (only a span).
 */
struct rockgingham_event rockgingham_read(const uint8_t *bytes, size_t length);

struct rockgingham_written {
    uint64_t refusal;
    uint64_t length; /* how many bytes were written */
};

/*
 * Each writes one event at the front of the buffer, and no byte after it.
 * Refusals: 10 (only a span), 2 if the buffer is shorter than the event.
 */
struct rockgingham_written rockgingham_write_location(uint64_t location, uint8_t *buffer, size_t buffer_length);
struct rockgingham_written rockgingham_write_span(uint64_t offset, uint32_t length, uint8_t *buffer, size_t buffer_length);
struct rockgingham_written rockgingham_write_restart(uint8_t *buffer, size_t buffer_length);
struct rockgingham_written rockgingham_write_setup(uint32_t limit, uint32_t start, uint32_t width, uint32_t buckets,
                                                   uint8_t hash_kind, uint8_t *buffer, size_t buffer_length);

#ifdef __cplusplus
}
#endif

#endif
