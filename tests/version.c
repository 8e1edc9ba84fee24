/*
 * A tracker, set up by one of the calls that can do it: BY_SETUP, BY_APPLY or BY_FEED is defined. It links only with a library
 * of the version that it was compiled for.
 */
#include "rockgingham.h"

enum { WORDS = ROCKGINGHAM_RECORD_WORDS, LIMIT = 1, NEEDED = ROCKGINGHAM_COUNTS_NEEDED(1) };

int main(void)
{
    static uint64_t record[WORDS], locations[LIMIT], counts[NEEDED];
    static uint32_t thresholds[NEEDED];
#ifdef BY_SETUP
    const struct rockgingham_settings settings = {LIMIT, ROCKGINGHAM_FULL_RATE, 1, 1, ROCKGINGHAM_HASH_MURMUR};
    return (int)rockgingham_setup(record, WORDS, settings, locations, LIMIT, counts, NEEDED, thresholds, NEEDED);
#else
    static uint8_t event[ROCKGINGHAM_LENGTH_SETUP];
    rockgingham_write_setup(LIMIT, ROCKGINGHAM_FULL_RATE, 1, 1, ROCKGINGHAM_HASH_MURMUR, event, sizeof event);
#ifdef BY_APPLY
    return (int)rockgingham_apply(record, WORDS, event, sizeof event, locations, LIMIT, counts, NEEDED, thresholds, NEEDED).refusal;
#else
    return (int)rockgingham_feed(record, WORDS, event, sizeof event, locations, LIMIT, counts, NEEDED, thresholds, NEEDED).refusal;
#endif
#endif
}
