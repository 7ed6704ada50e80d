/* A store of delays by date, as people are told of it. What is refused is refused by the library. */
#include "cggtts.h"

#include <inttypes.h>
#include <stdio.h>
#include <string.h>

const char *const DELAY_NAME[DELAYS] = {"INT", "CAB", "REF", "GD"};

static const int64_t LIMIT = TRACKLINE_MOST_CORRECTION;

static size_t store_version(const uint8_t *store)
{
    return (size_t)unsigned_at(store, TRACKLINE_STORE_AT_VERSION, TRACKLINE_STORE_WIDTH_VERSION);
}

size_t store_count(const uint8_t *store)
{
    return (size_t)unsigned_at(store, TRACKLINE_STORE_AT_COUNT, TRACKLINE_STORE_WIDTH_COUNT);
}

size_t store_group(const uint8_t *store)
{
    return store_version(store) == 1 ? TRACKLINE_STORE_GROUP_1 : TRACKLINE_STORE_GROUP_2;
}

uint32_t store_start(const uint8_t *store, size_t entry)
{
    return (uint32_t)unsigned_at(store, TRACKLINE_STORE_AT_STARTS + TRACKLINE_STORE_WIDTH_START * entry, TRACKLINE_STORE_WIDTH_START);
}

int64_t store_delay(const uint8_t *store, size_t entry, size_t place)
{
    size_t groups = TRACKLINE_STORE_AT_STARTS + TRACKLINE_STORE_WIDTH_START * store_count(store);
    return place < store_group(store) ? ps_at(store, groups + TRACKLINE_WIDTH_PS * (store_group(store) * entry + place)) : 0;
}

const char *mjd_text(uint32_t mjd, char *room)
{
    char date[DATE_ROOM];
    snprintf(room, ENTRY_ROOM, "MJD %" PRIu32 " (%s)", mjd, date_text(mjd, date));
    return room;
}

const char *entry_text(const uint8_t *store, size_t entry, char *room)
{
    char start[ENTRY_ROOM];
    snprintf(room, ENTRY_ROOM, "entry %zu of %zu, from %.80s on", entry + 1, store_count(store), mjd_text(store_start(store, entry), start));
    return room;
}

/* A lookup on the last date there is finds every fault of the store, and an entry where there is one. */
uint32_t judge_store(const struct bytes *store)
{
    int64_t delays[DELAYS];
    uint32_t answer = trackline_delays(store->at, store->length, UINT32_MAX, delays, DELAYS);
    return answer == TRACKLINE_NOT_YET ? TRACKLINE_ACCEPTED : answer;
}

int read_store(const char *name, struct bytes *store)
{
    int status = read_file(name, store);
    uint32_t answer = status == ACCEPTED ? judge_store(store) : TRACKLINE_ACCEPTED;
    if (answer != TRACKLINE_ACCEPTED) {
        report_refusal(name, answer);
        explain_store(store);
        free_bytes(store);
        return REFUSED;
    }
    return status;
}

/* What keeps the bytes as a whole from being a store. Answers whether anything does. */
static int explain_whole(const struct bytes *store)
{
    if (store->length > 0 && memchr(store->at, 0, store->length) == NULL) {
        explain("it may be a text, which 'cggtts store TEXT -o STORE' makes a store of");
        return 1;
    }
    if (store->length < TRACKLINE_STORE_AT_STARTS) {
        explain("it has %zu byte%s, and the shortest store has %d", store->length, store->length == 1 ? "" : "s", TRACKLINE_STORE_AT_STARTS);
        return 1;
    }
    size_t version = store_version(store->at), count = store_count(store->at);
    if (version != 1 && version != 2) {
        explain("its version is %zu, and there are 1 and 2%s", version,
                sizes_fit(measurements_of(store->at), groups_of(store->at)) ? ": it may be a hire block" : "");
        return 1;
    }
    if (count > TRACKLINE_STORE_MOST_ENTRIES) {
        explain("its count is %zu, and a store has at most %d entries", count, TRACKLINE_STORE_MOST_ENTRIES);
        return 1;
    }
    size_t makes = version == 1 ? TRACKLINE_STORE_BYTES_1_OF(count) : TRACKLINE_STORE_BYTES_2_OF(count);
    if (store->length != makes) {
        size_t off = store->length < makes ? makes - store->length : store->length - makes;
        explain("it has %zu bytes, and version %zu with %zu entr%s makes %zu: %zu %s", store->length, version, count,
                count == 1 ? "y" : "ies", makes, off, store->length < makes ? "missing" : "too many");
    }
    return store->length != makes;
}

/* An entry that does not start after the one before it. Answers how many faults it has. */
static size_t explain_order(const uint8_t *store, size_t entry, size_t found)
{
    char text[ENTRY_ROOM], before[ENTRY_ROOM];
    if (entry == 0 || store_start(store, entry - 1) < store_start(store, entry)) {
        return 0;
    }
    if (found == 0) {
        explain("%s: the entry before it starts on %s, and each has to start later than that", entry_text(store, entry, text),
                mjd_text(store_start(store, entry - 1), before));
    }
    return 1;
}

static size_t explain_delays(const uint8_t *store, size_t entry, size_t found)
{
    char text[ENTRY_ROOM];
    size_t here = 0;
    for (size_t place = 0; place < DELAYS; place++) {
        int64_t delay = store_delay(store, entry, place);
        if (delay >= -LIMIT && delay <= LIMIT) {
            continue;
        }
        if (found + here++ == 0) {
            explain("%s: %s is %" PRId64 " ps, beyond %" PRId64, entry_text(store, entry, text), DELAY_NAME[place], delay,
                    delay < 0 ? -LIMIT : LIMIT);
        }
    }
    return here;
}

/* The first fault by its entry, and how many more there are. */
void explain_store(const struct bytes *store)
{
    size_t found = 0;
    if (explain_whole(store)) {
        return;
    }
    for (size_t entry = 0; entry < store_count(store->at); entry++) {
        found += explain_order(store->at, entry, found);
        found += explain_delays(store->at, entry, found);
    }
    if (found > 1) {
        explain("and %zu more", found - 1);
    }
}

/* What an accepted store does not take: 20 for the new delays, as they were typed, 22 for the date or the count. */
void explain_appended(const struct bytes *store, uint32_t mjd, char **words, const int64_t *delays, uint32_t number)
{
    char date[ENTRY_ROOM], last[ENTRY_ROOM];
    size_t count = store_count(store->at);
    for (size_t place = 0; number == TRACKLINE_STORE && place < DELAYS; place++) {
        if (delays[place] < -LIMIT || delays[place] > LIMIT) {
            explain("%s is %.200s ps, beyond %" PRId64, DELAY_NAME[place], words[place], delays[place] < 0 ? -LIMIT : LIMIT);
        } else if (place >= store_group(store->at) && delays[place] != 0) {
            explain("%s is %.200s ps, and an entry of version 1 has none: it reads as 0", DELAY_NAME[place], words[place]);
        }
    }
    if (number == TRACKLINE_NOT_LATER && mjd <= store_start(store->at, count - 1)) {
        explain("%s is not later than the last: %s", mjd_text(mjd, date), entry_text(store->at, count - 1, last));
    }
    if (number == TRACKLINE_NOT_LATER && count == TRACKLINE_STORE_MOST_ENTRIES) {
        explain("it has %zu entries, and a store has no more", count);
    }
}
