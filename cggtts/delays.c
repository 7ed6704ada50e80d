/* cggtts delays: the delays in force on a date, as a text for hireblock has them. */
#include "cggtts.h"

#include <inttypes.h>
#include <stdio.h>

/* The entry that is in force: that of the latest start not after the date, as the library found. */
static size_t entry_in_force(const uint8_t *store, uint32_t mjd)
{
    size_t entry = store_count(store) - 1;
    while (entry > 0 && store_start(store, entry) > mjd) {
        entry--;
    }
    return entry;
}

/* Which entry it is, since when it is in force and until when. */
static void print_span(const uint8_t *store, size_t entry, uint32_t mjd)
{
    char asked[ENTRY_ROOM], first[ENTRY_ROOM], last[ENTRY_ROOM];
    print_form("# delays on %s: entry %zu of %zu, in force from %s ", mjd_text(mjd, asked), entry + 1, store_count(store),
               mjd_text(store_start(store, entry), first));
    if (entry + 1 < store_count(store)) {
        print_form("to %s\n", mjd_text(store_start(store, entry + 1) - 1, last));
    } else {
        print_text("on, as no later one is kept\n");
    }
}

/* 21: the earliest start. */
static void explain_early(const uint8_t *store, uint32_t mjd)
{
    char date[ENTRY_ROOM], first[ENTRY_ROOM];
    if (store_count(store) == 0) {
        explain("it has no entry");
    } else {
        explain("%s is before the first: %s", mjd_text(mjd, date), entry_text(store, 0, first));
    }
}

static int print_delays(const char *name, const struct bytes *store, uint32_t mjd)
{
    int64_t delays[DELAYS];
    uint32_t answer = trackline_delays(store->at, store->length, mjd, delays, DELAYS);
    if (answer != TRACKLINE_ACCEPTED) {
        report_refusal(name, answer);
        explain_early(store->at, mjd);
        return REFUSED;
    }
    remark_on_date(name, mjd);
    print_span(store->at, entry_in_force(store->at, mjd), mjd);
    for (size_t place = 0; place < DELAYS; place++) {
        print_form("%-3s = %" PRId64 "\n", DELAY_NAME[place], delays[place]);
    }
    return ACCEPTED;
}

int delays_command(int argc, char **argv)
{
    struct arguments given;
    struct bytes store;
    uint32_t mjd;
    if (read_arguments(argc, argv, WITH_NUMBERS, &given) != ACCEPTED) {
        return FAILED;
    }
    if (given.count != 2) {
        return given.count < 2 ? wrong_use("delays: no MJD or date") : wrong_use("delays: '%s' is one word too many", given.names[2]);
    }
    if (complain_of_date("delays", given.names[1], read_mjd(given.names[1], &mjd))) {
        return FAILED;
    }
    int status = read_store(given.names[0], &store);
    if (status == ACCEPTED) {
        status = print_delays(given.names[0], &store, mjd);
        free_bytes(&store);
    }
    return status;
}
