/*
 * The spring incident, replayed. A governor plans with a point of a long curve and keeps that curve's shape. The curve is set up
 * anew, shorter. Asked for with the old shape, the old point is refused by name: Stale. Asked for with the new shape, it is
 * refused as past the end: Point. Then the governor plans a new point, and that is answered.
 */
#include "rockgingham.h"

#include <inttypes.h>
#include <stdio.h>

/* How much is lent: enough for sample limits up to 1,024 and for up to 512 buckets. */
enum {
    WORDS = ROCKGINGHAM_RECORD_WORDS,
    LOCATIONS = ROCKGINGHAM_LOCATIONS_NEEDED(1024),
    COUNTS = ROCKGINGHAM_COUNTS_NEEDED(512),
    THRESHOLDS = ROCKGINGHAM_THRESHOLDS_NEEDED(512)
};

struct tracker {
    uint64_t record[WORDS];
    uint64_t locations[LOCATIONS];
    uint64_t counts[COUNTS];
    uint32_t thresholds[THRESHOLDS];
};

/* A point, and the shape of the curve that it was planned with. */
struct governor {
    struct rockgingham_shape shape;
    uint64_t number;
};

static const char *name_of(uint64_t refusal)
{
    static const char *const names[] = {
        [ROCKGINGHAM_ACCEPTED] = "accepted",     [ROCKGINGHAM_REFUSED_SETTINGS] = "Settings",
        [ROCKGINGHAM_REFUSED_TABLES] = "Tables", [ROCKGINGHAM_REFUSED_TORN] = "Torn",
        [ROCKGINGHAM_REFUSED_FULL] = "Full",     [ROCKGINGHAM_REFUSED_STALE] = "Stale",
        [ROCKGINGHAM_REFUSED_POINT] = "Point",   [ROCKGINGHAM_REFUSED_SHORT] = "Short",
        [ROCKGINGHAM_REFUSED_KIND] = "Kind",     [ROCKGINGHAM_REFUSED_EMPTY] = "Empty",
        [ROCKGINGHAM_REFUSED_OVERRUN] = "Overrun",
    };
    return refusal < sizeof names / sizeof names[0] ? names[refusal] : "unknown";
}

static uint64_t set_up(struct tracker *t, struct rockgingham_settings settings)
{
    return rockgingham_setup(t->record, WORDS, settings, t->locations, LOCATIONS, t->counts, COUNTS, t->thresholds, THRESHOLDS);
}

static uint64_t refer(struct tracker *t, uint64_t location)
{
    struct rockgingham_answer answer =
        rockgingham_refer(t->record, WORDS, location, t->locations, LOCATIONS, t->counts, COUNTS, t->thresholds, THRESHOLDS);
    return answer.refusal;
}

/* Reads so many blocks in a row, three times over. */
static uint64_t work(struct tracker *t, uint64_t blocks)
{
    uint64_t refusal = ROCKGINGHAM_ACCEPTED;
    for (uint64_t i = 0; i < 3 * blocks && refusal == ROCKGINGHAM_ACCEPTED; i++) {
        refusal = refer(t, i % blocks);
    }
    return refusal;
}

static struct rockgingham_shape shape_of(const struct tracker *t)
{
    struct rockgingham_shape shape = {t->record[ROCKGINGHAM_WORD_BUCKETS], t->record[ROCKGINGHAM_WORD_WIDTH]};
    return shape;
}

/* Asks for the governor's point and prints the answer. Returns whether it is the expected one. */
static int ask(const struct governor *g, const struct tracker *t, uint64_t expected)
{
    struct rockgingham_point point =
        rockgingham_point(t->record, WORDS, g->shape, g->number, t->counts, COUNTS, t->thresholds, THRESHOLDS);
    printf("governor asks for point %" PRIu64 " of %" PRIu64 " buckets of %" PRIu64 " blocks: ", g->number, g->shape.buckets,
           g->shape.width);
    if (point.refusal != ROCKGINGHAM_ACCEPTED) {
        printf("refused, %" PRIu64 " %s\n", point.refusal, name_of(point.refusal));
    } else {
        printf("%" PRIu64 " blocks miss %" PRIu64 " of %" PRIu64 "\n", point.size, point.misses, point.total);
    }
    return point.refusal == expected;
}

/* One step of the incident. Returns whether it was accepted. */
static int step(const char *what, uint64_t refusal)
{
    printf("%s: %" PRIu64 " %s\n", what, refusal, name_of(refusal));
    return refusal == ROCKGINGHAM_ACCEPTED;
}

int main(void)
{
    static struct tracker tracker;
    struct rockgingham_settings settings = {.start = ROCKGINGHAM_FULL_RATE, .hash_kind = ROCKGINGHAM_HASH_MURMUR};
    struct governor governor;
    int right;

    settings.buckets = 512;
    right = step("a long curve is set up", set_up(&tracker, settings));
    right &= step("a loop over 300 blocks is measured", work(&tracker, 300));

    governor.shape = shape_of(&tracker);
    governor.number = 300;
    right &= ask(&governor, &tracker, ROCKGINGHAM_ACCEPTED);

    settings.buckets = 64;
    settings.width = 4;
    right &= step("the curve is set up anew, shorter", set_up(&tracker, settings));
    right &= step("a loop over 100 blocks is measured", work(&tracker, 100));

    right &= ask(&governor, &tracker, ROCKGINGHAM_REFUSED_STALE);
    governor.shape = shape_of(&tracker);
    right &= ask(&governor, &tracker, ROCKGINGHAM_REFUSED_POINT);
    governor.number = 100 / governor.shape.width;
    right &= ask(&governor, &tracker, ROCKGINGHAM_ACCEPTED);

    printf("%s\n", right ? "shown: the point asked for under the old shape was refused 5, Stale" : "WRONG");
    return right ? 0 : 1;
}
