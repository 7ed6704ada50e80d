/*
 * What the parts of cggtts share. Everything that decides is in the library; this program reads and writes files, and
 * says in words what the library answered.
 *
 * A subcommand is a file with one function, declared at the end, and a row of the table in main.c.
 */
#ifndef CGGTTS_H
#define CGGTTS_H

#define _XOPEN_SOURCE 700

#include <stddef.h>
#include <stdint.h>

#include "trackline.h"

/* Exit statuses. Of several files the greatest counts. */
enum { ACCEPTED = 0, REFUSED = 1, FAILED = 2 };

/* The schedule's dates, for messages. */
enum { FIRST_MJD = TRACKLINE_FIRST_MJD, LAST_MJD = TRACKLINE_LAST_MJD };

/* The seconds of a day, room for a file's name with a line's number, and for all that is said of two when each byte takes four. */
enum { DAY = 86400, NAME_ROOM = 4200, CLEAN_ROOM = 12 * NAME_ROOM };

/* The bytes of a file. */
struct bytes {
    uint8_t *at;
    size_t length;
    size_t room;
};

/* files.c: each answers ACCEPTED, or FAILED after a message. A file named - is standard input or output. */
int read_file(const char *name, struct bytes *bytes);
int write_file(const char *name, const struct bytes *bytes);
int append_bytes(struct bytes *bytes, const void *more, size_t length);
int looks_like_text(const struct bytes *bytes);
int is_input(const char *output, const char *input);
int is_standard_output(const char *name);
int is_empty(const char *name);
void free_bytes(struct bytes *bytes);

/* output.c: standard output, and what goes wrong with it, which is told once, at the end. */
void print_bytes(const void *bytes, size_t length);
void print_text(const char *text);
void print_form(const char *form, ...);
void print_name(const char *file);
int flush_output(void);
int close_output(void);

/* messages.c: all on standard error. */
void complain(const char *file, const char *reason);
void complain_of_error(const char *file, int error);
void report_refusal(const char *file, uint32_t number);
void explain(const char *form, ...);
int wrong_use(const char *form, ...);
const char *called(const char *file); /* standard input is given as - */
const char *clean(const char *text);  /* without control characters */

/* numbers.c: the nearest whole number, a tie going up, and a number as people write it. */
enum { DECIMAL_ROOM = 32 };
int64_t nearest(int64_t numerator, int64_t divisor);
const char *decimal_text(int64_t value, int places, char *room);

/* dates.c: the calendar date of an MJD as yyyy-mm-dd, and the other way round, which answers whether the word is a date. */
enum { DATE_ROOM = 64 };
const char *date_text(int64_t mjd, char *room);
int read_calendar(const char *word, int64_t *mjd);

/*
 * words.c: a date and a number as they are typed. What a store can't hold is told apart from what is none; a number that is too
 * large for 64 bits is then the largest, or the least.
 */
enum word { NO_WORD, FITS, TOO_LARGE };
enum word read_ps(const char *word, int64_t *value);
enum word read_mjd(const char *word, uint32_t *mjd);
int complain_of_date(const char *where, const char *word, enum word found);
int no_line_has(uint32_t mjd);
void remark_on_date(const char *where, uint32_t mjd);

/*
 * arguments.c: what stands behind a subcommand. Answers ACCEPTED, or FAILED after a message. Allowed may be an option -o, that
 * no file is named, that -o replaces a file that is read, that only the first word is a file and numbers follow, and the options of
 * view, of convert, of read, of store, of day, of down and of up. Nothing else that is read may be written to.
 */
enum {
    WITH_OUTPUT = 1, NO_FILE = 2, REPLACING = 4, WITH_VIEW = 8, WITH_CONVERT = 16, WITH_READ = 64, WITH_NUMBERS = 128,
    WITH_STORE = 256, WITH_DAY = 1024, WITH_DOWN = 2048, WITH_UP = 4096
};
enum { MOST_CODES = 32, FRC_WIDTH = TRACKLINE_WIDTH_FRC };
struct arguments {
    const char *output;            /* what -o names, or NULL */
    const char *picture;           /* what --svg names, or NULL */
    const char *range;             /* what stands behind --range, or NULL */
    int pairs, about, parted;      /* options of view that are given */
    int bad, csv;                  /* options of read that are given */
    int skip, show;                /* --skip of convert, --show of store is given */
    int sort;                      /* --sort of day is given */
    int gps;                       /* --gps of down is given */
    const char *hc, *frc;          /* what lines of version 01 are given, or NULL */
    const char *codes[MOST_CODES]; /* what --frc names, OLD=NEW */
    int codes_count;
    int count;
    char **names;
};
int read_arguments(int argc, char **argv, int allowed, struct arguments *found);
int check_supplied(const char *command, const struct arguments *given, int needed);
const char *code_for(const struct arguments *given, const uint8_t *code);

/* block.c: the numbers in a hire block. The sizes are asked for first: 15n and n where they are those of n blocks. */
uint64_t unsigned_at(const uint8_t *block, size_t at, size_t width);
size_t measurements_of(const uint8_t *block);
size_t groups_of(const uint8_t *block);
int sizes_fit(size_t measurements, size_t groups);
int64_t ps_at(const uint8_t *block, size_t at);
int64_t measurement_at(const uint8_t *block, size_t i);
int64_t correction_at(const uint8_t *block, size_t j, size_t in_group);

/*
 * check.c: what is wrong with the bytes as a whole, and whether they look like a text that was not packed. labels.c, limits.c,
 * figures.c, starts.c: each explains what a block is refused for.
 */
int explain_bytes(const struct bytes *block, uint32_t number);
void explain_refusal(const struct bytes *block, uint32_t number); /* all that check says of it */
void explain_labels(const uint8_t *block);
void explain_limits(const uint8_t *block);
void explain_figures(const uint8_t *block, uint32_t number);
void explain_start(const uint8_t *block);
const char *shown(uint8_t byte, char *room); /* labels.c: a byte that may not be visible, in a room of 8 bytes */
const char *constellation_name(uint8_t letter);

/* farthest.c: where in a block with these sizes the values lie farthest from the line, for refusals 4 and 6. */
void explain_farthest(const uint8_t *block, uint32_t number);

/* kinds.c: what else a file or a line is that was given as a block, as lines, or as a line. Each answers whether it is told. */
int explain_no_block(const struct bytes *file);
int explain_no_lines(const struct bytes *file);
int explain_other_line(const uint8_t *line, size_t length);
int explain_same_form(const uint8_t *line, size_t length, int old);

/* columns.c: the fields of a data line by their columns, counted from 1, and what a refused line, also of version 01, is refused for. */
enum form { LETTER, WHOLE, CALENDAR, HEXADECIMAL, TENTHS, CLOCK, CHARACTERS };
struct field {
    const char *name;
    size_t first, last;
    enum form form;
    enum trackline_value place; /* of its value, the first of several */
    const char *unit;
};
enum { FIELDS = 22 };
extern const struct field FIELD[FIELDS];
void explain_line(const uint8_t *line, size_t length, uint32_t number);
void explain_old_line(const uint8_t *old, size_t length, uint32_t number);

/* linefiles.c: two line files, and the line that one of them is refused for. Lines are counted from 1. */
struct line_file {
    const char *name;
    struct bytes bytes;
};
enum { KEYS_ROOM = 40 };
int read_files(struct line_file *first, struct line_file *second);
void free_files(struct line_file *first, struct line_file *second);
size_t lines_of(const struct bytes *file);
const uint8_t *line_at(const struct bytes *file, size_t number);
const char *keys_of(const uint8_t *line, char *room);
int compare_keys(const uint8_t *line, const uint8_t *other);
size_t column_of_difference(const uint8_t *line, const uint8_t *other);
const struct field *field_at(size_t column);
int files_refused(const struct bytes *first, const struct bytes *second);
size_t blamed_line(const struct bytes *file, const struct bytes *other);
struct bytes head_of(const struct bytes *file, size_t lines);
void report_line(const struct line_file *file, size_t number, uint32_t answer);
int report_file(const struct line_file *first, const struct line_file *second, uint32_t answer);

/* table.c: accepted lines as a table. */
void print_table_heading(void);
void print_table_row(const char *file, size_t number, const uint8_t *line, size_t length, const int64_t *values);

/* differ.c: two lines with the same keys, each by where it stands, and two lines of two files. */
void explain_difference(const char *place, const uint8_t *line, const char *other_place, const uint8_t *other);
void explain_two_lines(const struct line_file *first, size_t number, const struct line_file *second, size_t other_number);

/* range.c: what a picture shows of the differences, in 0.1 ns, both ends included; not given, all. */
struct range_of_picture {
    int given;
    int64_t low, high;
};
int read_range(const char *word, struct range_of_picture *range);

/* pairs.c: the pairs of two line files one by one, and why there is none. */
struct pair {
    const uint8_t *line, *other; /* those of the first and the second file */
    uint32_t mjd, start;         /* the second of the day */
    int64_t difference;          /* of REFSYS, first less second, in 0.1 ns */
};
struct view {
    const struct line_file *first, *second;
    int64_t report[TRACKLINE_REPORT_NUMBERS];
    struct pair *pairs; /* as many as the report says, or NULL */
    struct range_of_picture range;
    size_t parts;       /* of how many parts the report is joined, or 0 where the files were not parted */
};
int find_pairs(struct view *view);
size_t pairs_of_two_codes(const struct bytes *first, const struct bytes *second);
size_t lines_that_differ(const struct bytes *first, const struct bytes *second);
void explain_no_pair(const struct line_file *first, const struct line_file *second);

/* picture.c: the differences over time, as SVG. */
int draw_view(const struct view *view, struct bytes *picture);

/* parted.c: the common view of two line files of any length, by dates: the number of a refusal, or 0 with the report. */
uint32_t view_parted(const struct bytes *first, const struct bytes *second, int64_t *report, size_t *parts);

/* joining.c: one line file from any number of them; ACCEPTED, or FAILED after a message. The answer is the library's. */
int join_files(struct bytes *pieces, size_t count, struct bytes *joined, uint32_t *answer);

/* texts.c: the lines of a text. A line ends with line feed, or carriage return and line feed; the last one need not. */
struct text {
    const uint8_t *at;
    size_t length; /* without the line end */
    size_t next;   /* where the next line begins */
};
int text_at(const struct bytes *file, size_t from, struct text *line);
size_t text_begin(const struct bytes *file); /* behind a byte order mark */
int is_empty_line(const struct text *line);

/* headers.c: the header of a published file, found by its form. */
struct header {
    size_t lines, next; /* how many there are, and where what follows begins */
    size_t check_line;  /* that of CKSUM, counted from 1 in the header, or 0 where there is none */
    int fits;           /* CKSUM is right */
    unsigned stated, sum;
};
int find_header(const struct bytes *file, size_t from, struct header *found);
size_t header_lines(const struct bytes *file, size_t *from);
int begins_with_header(const struct bytes *file);
int has_old_header(const struct bytes *file);
int begins_like_data(const uint8_t *line, size_t length);
int holds_data(const uint8_t *line, size_t length);

/* published.c: a data line as it is published, and what keeps it from being a line of ours. */
struct taken {
    uint8_t line[TRACKLINE_LINE_BYTES]; /* as the library makes it */
    int filled, coded, commented, old;  /* other fills, another FRC put in, a comment left out, of version 01 */
};
struct fault {
    size_t column;
    char reason[200];
    int lacking; /* it is of version 01, and HC and FRC are not given */
};
int take_line(const uint8_t *line, size_t length, const struct arguments *given, struct taken *taken, struct fault *fault);
int has_lone_return(const uint8_t *line, size_t length);
int is_code(const char *code);

/*
 * advice.c: the commands that help with a file that is refused, below the refusal. The last two answer whether there is one. HC and
 * FRC for lines of version 01 are those given, or, with NULL, left open.
 */
void advise_convert(const char *name, const char *what);
void advise_old(const char *name, const char *what, const struct arguments *given);
void advise_header(const char *name, const struct bytes *file);
void advise_parted(const char *first, const char *second);
int advise_line(const struct line_file *file, const uint8_t *line, size_t length);
int advise_code(const struct line_file *file, const uint8_t *line, size_t length);

/* remarks.c: lines that were made one by one, of so many bytes each, where they stood, and what a person has to know of them. */
struct origin {
    const char *file;
    size_t line;
    char frc[FRC_WIDTH]; /* that is dropped, or nothing */
};
void remark_on_order(const struct bytes *lines, size_t width, const struct bytes *origins);
void remark_on_same_keys(const struct bytes *lines, size_t width, const struct bytes *origins);

/* progress.c: how far a long work has come, told where a person waits for it. */
void begin_progress(void);
void show_progress(size_t done, size_t all, const char *what);
void end_progress(void);

/* about.c: rounded figures for people. */
int print_about(const struct view *view);

/* stores.c: a store of delays by date, for people. Entries are counted from 0 here, and from 1 in messages. */
enum { ENTRY_ROOM = 160, DELAYS = TRACKLINE_DELAYS_NUMBERS };
extern const char *const DELAY_NAME[DELAYS];
size_t store_count(const uint8_t *store);
size_t store_group(const uint8_t *store); /* how many delays an entry has */
uint32_t store_start(const uint8_t *store, size_t entry);
int64_t store_delay(const uint8_t *store, size_t entry, size_t place);
const char *mjd_text(uint32_t mjd, char *room);                                /* with its calendar date */
const char *entry_text(const uint8_t *store, size_t entry, char *room);        /* which one, and since when */
uint32_t judge_store(const struct bytes *store);                               /* the library's answer: 0 or 20 */
int read_store(const char *name, struct bytes *store);                         /* ACCEPTED, or another status after a message */
void explain_store(const struct bytes *store);                                 /* what it is refused for */
void explain_appended(const struct bytes *store, uint32_t mjd, char **words, const int64_t *delays, uint32_t number);

/* The subcommands. Each takes what main was given from its own name on, and answers the exit status. */
int line_command(int argc, char **argv);
int check_command(int argc, char **argv);
int read_command(int argc, char **argv);
int convert_command(int argc, char **argv);
int merge_command(int argc, char **argv);
int view_command(int argc, char **argv);
int path_command(int argc, char **argv);
int starts_command(int argc, char **argv);
int delays_command(int argc, char **argv);
int append_command(int argc, char **argv);
int store_command(int argc, char **argv);
int day_command(int argc, char **argv);
int down_command(int argc, char **argv);
int up_command(int argc, char **argv);

#endif
