/*
 * trackline: CGGTTS data lines from satellite tracks, and what can be done with such lines.
 *
 *     trackline_block    the line of a hire block           trackline_line    the line of labels and ten numbers
 *     trackline_start    whether a track starts then        trackline_path    the path from satellite to antenna
 *     trackline_read     what stands in a line              trackline_comment where its comment begins
 *     trackline_merge    one line file from two             trackline_view    the common view of two
 *     trackline_day      a line file of many blocks         trackline_down    a line of version 01, trackline_up back
 *     trackline_delays   the delays in force on a date      trackline_append  a store of delays with one entry more
 *
 * Each but trackline_comment answers 0, or the number of its first refusal, and then writes nothing. Nothing is kept
 * between calls: threads may call at once, on lines of their own.
 *
 * A slice is a pointer and a length; NULL with length 0 is an empty slice. A length counts elements: bytes, but numbers of
 * values, of a report or of delays, which sizeof does not count. With a length above 0 the pointer has to point to so many
 * elements: NULL or a wild pointer is not noticed. What is written to must not overlap anything else of the call. int64_t,
 * size_t and double have to be aligned as C aligns them, to 8 bytes.
 *
 * Written are the first 113 bytes of a lent line, 103 of version 01, with no byte of zero after them; or 23 values, 4 numbers,
 * or *written bytes. What is lent behind these stays as it was.
 *
 * All dates are UTC: an MJD and a second of it. Measurement i is that of the UTC second start + i, be it past midnight. GPS,
 * Galileo and BeiDou time have no leap seconds, so a receiver brings their dates to UTC first.
 */
#ifndef TRACKLINE_H
#define TRACKLINE_H

#include <stddef.h>
#include <stdint.h>

#ifdef __cplusplus
extern "C" {
#endif

/* The version of the library that this header is of. */
#define TRACKLINE_VERSION "1.11.0"
#define TRACKLINE_VERSION_MAJOR 1
#define TRACKLINE_VERSION_MINOR 11
#define TRACKLINE_VERSION_PATCH 0

/* Columns of a line, and bytes of a line with the longest comment behind them. */
#define TRACKLINE_LINE_BYTES 113
#define TRACKLINE_LONGEST_LINE 140

/* The same of a line of version 01. */
#define TRACKLINE_OLD_BYTES 103
#define TRACKLINE_LONGEST_OLD 128

/*
 * The hire block, little-endian; hireblock(5) tells it whole. AT is the first byte, counted from 0, WIDTH how many there
 * are. Numbers of eight bytes are ps, signed, two's complement; the others are unsigned. A track has n blocks of 15 seconds,
 * n from 4 to 52: 15 n measurements, second by second without a gap, and n groups of five corrections. The names without OF
 * are for a full track.
 */
#define TRACKLINE_LEAST_GROUPS 4
#define TRACKLINE_GROUPS 52
#define TRACKLINE_MEASUREMENTS 780
#define TRACKLINE_BLOCK_BYTES 8378
#define TRACKLINE_MEASUREMENTS_OF(n) (15 * (n))
#define TRACKLINE_BLOCK_BYTES_OF(n) (58 + 160 * (n))

#define TRACKLINE_AT_MEASUREMENTS_SIZE 0
#define TRACKLINE_WIDTH_MEASUREMENTS_SIZE 2
#define TRACKLINE_AT_GROUPS_SIZE 2
#define TRACKLINE_WIDTH_GROUPS_SIZE 2
#define TRACKLINE_AT_CONSTELLATION 4
#define TRACKLINE_WIDTH_CONSTELLATION 1
#define TRACKLINE_AT_SATELLITE 5
#define TRACKLINE_WIDTH_SATELLITE 1
#define TRACKLINE_AT_CL 6
#define TRACKLINE_WIDTH_CL 1
#define TRACKLINE_AT_FR 7
#define TRACKLINE_WIDTH_FR 1
#define TRACKLINE_AT_HC 8
#define TRACKLINE_WIDTH_HC 1
#define TRACKLINE_AT_FRC 9
#define TRACKLINE_WIDTH_FRC 3
#define TRACKLINE_AT_MJD 12
#define TRACKLINE_WIDTH_MJD 4
#define TRACKLINE_AT_START 16
#define TRACKLINE_WIDTH_START 4
#define TRACKLINE_AT_ELV 20
#define TRACKLINE_WIDTH_ELV 2
#define TRACKLINE_AT_AZTH 22
#define TRACKLINE_WIDTH_AZTH 2
#define TRACKLINE_AT_IOE 24
#define TRACKLINE_WIDTH_IOE 2
#define TRACKLINE_AT_INT 26
#define TRACKLINE_AT_CAB 34
#define TRACKLINE_AT_REF 42
#define TRACKLINE_AT_GD 50
#define TRACKLINE_AT_MEASUREMENTS 58 /* measurement i, from 0, at 58 + 8 i */
#define TRACKLINE_AT_GROUPS 6298     /* of a full track; group j, from 0, stands 40 j behind the first */
#define TRACKLINE_AT_GROUPS_OF(n) (58 + 120 * (n))
#define TRACKLINE_WIDTH_PS 8         /* each delay, measurement and correction */
#define TRACKLINE_WIDTH_GROUP 40

/* Where a correction stands in its group. */
#define TRACKLINE_IN_GROUP_GEOMETRY 0
#define TRACKLINE_IN_GROUP_RELATIVITY 8
#define TRACKLINE_IN_GROUP_IONOSPHERE 16
#define TRACKLINE_IN_GROUP_TROPOSPHERE 24
#define TRACKLINE_IN_GROUP_CLOCK 32

/*
 * A measurement is a pseudorange divided by the speed of light, in ps. Each block of 15 makes one smoothed value. It and the
 * delays and corrections of its group make
 *
 *     A = smoothed - (INT + CAB - REF) - geometry + relativity - ionosphere - troposphere - GD
 *     B = A + clock
 *
 * A gives REFSV, SRSV; B gives REFSYS, SRSYS, DSG; troposphere MDTR, SMDT; ionosphere MDIO, SMDI. Geometry is the path plus
 * Sagnac. Clock is the satellite's less the system's time, without relativity, whose sign is that of A. GD is TGD for GPS and
 * QZSS, BGD for Galileo, -TGD1 for BeiDou, 0 for GLONASS.
 */

/*
 * Limits: in ps, to both sides of 0, for 2; of labels, for 7; of the ten numbers in the units of a line, for 3 to 6. Those of
 * REFSV, REFSYS and slopes are to both sides of 0, of MDTR, MDIO and DSG from 0 on.
 */
#define TRACKLINE_MOST_MEASUREMENT 1000000000000
#define TRACKLINE_MOST_GEOMETRY 200000000000
#define TRACKLINE_MOST_CORRECTION 10000000000 /* any other correction, and each delay */
#define TRACKLINE_FIRST_MJD 50722
#define TRACKLINE_LAST_MJD 99999
#define TRACKLINE_LEAST_SATELLITE 1
#define TRACKLINE_MOST_SATELLITE 99
#define TRACKLINE_MOST_HC 99
#define TRACKLINE_LEAST_FR_R 1 /* of GLONASS; of the others FR is 0 */
#define TRACKLINE_MOST_FR_R 24
#define TRACKLINE_MOST_ELV 900
#define TRACKLINE_MOST_AZTH 3599
#define TRACKLINE_MOST_IOE_G 255 /* from 0 on, but for R */
#define TRACKLINE_MOST_IOE_J 255
#define TRACKLINE_MOST_IOE_E 999
#define TRACKLINE_MOST_IOE_C 23
#define TRACKLINE_LEAST_IOE_R 1
#define TRACKLINE_MOST_IOE_R 96
#define TRACKLINE_MOST_MIDPOINT 9999999999 /* REFSV, REFSYS */
#define TRACKLINE_MOST_SLOPE 99999         /* SRSV, SRSYS */
#define TRACKLINE_MOST_DELAY_SLOPE 999     /* SMDT, SMDI */
#define TRACKLINE_MOST_DELAY 9999          /* MDTR, MDIO */
#define TRACKLINE_MOST_DSG 9999
#define TRACKLINE_MOST_COORDINATE 50000000000 /* mm, to both sides of 0, for 24 */

/*
 * Refusals: X(number, name, text) for each. For messages let X be "case name: return text;" in a switch with a default.
 * share/doc/trackline/REFUSALS.md below the folder of the installation says what to do about each.
 *
 * 10 is retired and not used again: a table by number, X as "[number] = text,", has NULL at 0 and at the retired 10. It was
 * for a corrected value beyond its limit, and no version could answer it. Since 1.10.0 a source that names
 * TRACKLINE_CORRECTED does not compile: take the case out. A compiler may propose another refusal's name for it. Where only
 * the library is new, nothing need be compiled again.
 */
#define TRACKLINE_REFUSALS(X)                                                                                          \
    X(1, TRACKLINE_COUNT, "the block's two sizes are not 15 n and n, n from 4 to 52")                                  \
    X(2, TRACKLINE_LIMIT, "a measurement, a correction or a delay is beyond its limit")                                \
    X(3, TRACKLINE_MIDPOINT, "REFSV or REFSYS has more than ten digits")                                               \
    X(4, TRACKLINE_SLOPE, "SRSV or SRSYS has more than five digits, or SMDT or SMDI more than three")                  \
    X(5, TRACKLINE_DELAY, "MDTR or MDIO is below 0 or has more than four digits")                                      \
    X(6, TRACKLINE_SCATTER, "DSG is below 0 or has more than four digits")                                             \
    X(7, TRACKLINE_LABEL, "a label is out of its range, or the track length is not 15 n, n from 4 to 52")              \
    X(8, TRACKLINE_START, "no track of that day starts at that second")                                                \
    X(9, TRACKLINE_LENT, "lent is a line under 113 bytes (version 01: 103), values under 23, a report or delays under 4, or too short a store or file of a day") \
    X(11, TRACKLINE_LENGTH, "the block is under 4 bytes or not as long as its sizes make it")                          \
    X(12, TRACKLINE_LINE_LENGTH, "the line is not 113 to 140 bytes long (version 01: 103 to 128), or a file's last line is under 115") \
    X(13, TRACKLINE_CHARACTER, "a character is not allowed in its column or line end")                                 \
    X(14, TRACKLINE_CHECKSUM, "CK is not the two capital digits of the sum of the columns before it")                  \
    X(15, TRACKLINE_DIFFER, "two lines have the same MJD, start, letter and satellite, and differ")                    \
    X(16, TRACKLINE_ORDER, "the lines do not ascend by MJD, start, letter and satellite")                              \
    X(17, TRACKLINE_ROOM, "the lent file is shorter than the result")                                                  \
    X(18, TRACKLINE_NO_PAIR, "no two lines, one of each file, have the same MJD, start, letter, satellite and TRKL")   \
    X(19, TRACKLINE_FILE_LENGTH, "a file is longer than 1150000 bytes, which are 10000 lines")                         \
    X(20, TRACKLINE_STORE, "the store of delays is none, or a delay is beyond its limit or has no place in it")        \
    X(21, TRACKLINE_NOT_YET, "no entry of the store starts as early as that date")                                     \
    X(22, TRACKLINE_NOT_LATER, "the date is not later than the store's last, or the store has 1000 entries")           \
    X(23, TRACKLINE_NOT_WHOLE, "a coordinate is not a whole number of millimetres")                                    \
    X(24, TRACKLINE_COORDINATE, "a coordinate is outside -50000000000 to 50000000000 mm")                              \
    X(25, TRACKLINE_NOT_GPS, "the line's letter is not G, and version 01 has GPS alone")

#define TRACKLINE_NUMBER(number, name, text) , name = number
enum trackline_refusal {
    TRACKLINE_ACCEPTED = 0 /* what is lent has the line, values, file, report, delays, store or length */
    TRACKLINE_REFUSALS(TRACKLINE_NUMBER)
};
#undef TRACKLINE_NUMBER

/*
 * The line of a hire block. Tried in this order: 11 for a block under 4 bytes, 1, 11 for any other wrong length, 2, 3, 4,
 * 5, 6, then the labels' 7 and 8, then 9.
 *
 * Since version 1.4.0 values are kept in tenths of a ps. For some tracks REFSV, SRSV, REFSYS, SRSYS or DSG is another by one
 * unit than before, and no other column but CK; next to a limit 3, 4 or 6 can come or go.
 */
uint32_t trackline_block(const uint8_t *block, size_t block_len, uint8_t *line, size_t line_len);

/*
 * The line of labels and ten numbers. Tried in this order: 7, 8, 3, 4, 5, 6, 9.
 *
 * constellation is the letter G, R, E, C or J; satellite is 1 to 99; cl, the class, is any byte; fr, the GLONASS channel,
 * is 1 to 24 for R and 0 for the others; hc, the receiver channel, is 0 to 99; frc1 to frc3, the observation code, are
 * each A to Z or 0 to 9; mjd is 50722 to 99999; start is a second of the day; elv, 0 to 900, and azth, 0 to 3599, are in
 * 0.1 degree and of the middle of the track; ioe is 1 to 96 for R, 0 to 23 for C, 0 to 255 for G and J, 0 to 999 for E.
 * refsv, refsys, mdtr, mdio and dsg are in 0.1 ns; srsv, srsys, smdt and smdi in 0.1 ps/s; trkl, the track length, is 15 n
 * seconds, n from 4 to 52.
 */
uint32_t trackline_line(uint8_t constellation, uint8_t satellite, uint8_t cl, uint8_t fr, uint8_t hc,
                        uint8_t frc1, uint8_t frc2, uint8_t frc3,
                        uint32_t mjd, uint32_t start, uint16_t elv, uint16_t azth, uint16_t ioe,
                        int64_t refsv, int64_t srsv, int64_t refsys, int64_t srsys,
                        int64_t mdtr, int64_t smdt, int64_t mdio, int64_t smdi, int64_t dsg, int64_t trkl,
                        uint8_t *line, size_t line_len);

/*
 * Whether a track of that day starts at that second of the day: 0, or 7 for a day out of range, or 8. Track i of 89 starts at
 * minute 2 + 16 (i - 1) - 4 (mjd - 50722), brought into 0 to 1435 by adding or taking 1436 minutes, and at its second 0.
 */
uint32_t trackline_start(uint32_t mjd, uint32_t second);

/*
 * The straight path between a satellite, xs, ys and zs, and an antenna, xa, ya and za, all whole millimetres in one frame
 * that turns with the Earth. *length gets the greatest whole number of millimetres whose square is not above the exact sum
 * of the squared differences. The double holds it exactly; it is at most 173205080756. length must not be NULL.
 *
 * Metres in a double become whole millimetres by round(1000 * x). 1000 * x alone is often no whole number, and so refused
 * with 23. For 4202777.366 it is 4202777366.0000005.
 *
 * 23 is tried of all six before 24: a fraction, an infinity or not a number. 24 is beyond TRACKLINE_MOST_COORDINATE to either
 * side; so 1e300, which is a whole number, is 24. Minus zero counts as zero, and a length of 0 is plus zero.
 *
 * Geometry, in a block, is the path plus the Sagnac correction, in ps. Neither that nor the satellite's way while the signal
 * travels is in the length: give the satellite as it was when the signal left it. A millimetre is 10^9 / 299792458 ps.
 */
uint32_t trackline_path(double xs, double ys, double zs, double xa, double ya, double za, double *length);

/*
 * The places of a line's values: its labels and its ten numbers, in the order and the units of trackline_line. The
 * constellation and each character of FRC is its byte; start is the second of the day.
 */
enum trackline_value {
    TRACKLINE_VALUE_CONSTELLATION,
    TRACKLINE_VALUE_SATELLITE,
    TRACKLINE_VALUE_CL,
    TRACKLINE_VALUE_FR,
    TRACKLINE_VALUE_HC,
    TRACKLINE_VALUE_FRC1,
    TRACKLINE_VALUE_FRC2,
    TRACKLINE_VALUE_FRC3,
    TRACKLINE_VALUE_MJD,
    TRACKLINE_VALUE_START,
    TRACKLINE_VALUE_ELV,
    TRACKLINE_VALUE_AZTH,
    TRACKLINE_VALUE_IOE,
    TRACKLINE_VALUE_REFSV,
    TRACKLINE_VALUE_SRSV,
    TRACKLINE_VALUE_REFSYS,
    TRACKLINE_VALUE_SRSYS,
    TRACKLINE_VALUE_MDTR,
    TRACKLINE_VALUE_SMDT,
    TRACKLINE_VALUE_MDIO,
    TRACKLINE_VALUE_SMDI,
    TRACKLINE_VALUE_DSG,
    TRACKLINE_VALUE_TRKL,
    TRACKLINE_VALUES /* how many there are: 23 */
};

/*
 * What stands in a line, without its line end. Tried in this order: 12, 14, 13, 7, 8, 9; 7 also for a track length that is not
 * 15 n, n from 4 to 52; 8 also for an hour above 23 or a minute or a second above 59. 9: fewer than 23 values are lent.
 */
uint32_t trackline_read(const uint8_t *line, size_t line_len, int64_t *values, size_t values_len);

/*
 * Where the comment of a line begins: at byte 113, counted from 0, or, where the line is refused, at line_len, so that it
 * is then empty. It is the rest of the line from there, up to 27 bytes of 20 to 7E hexadecimal.
 */
size_t trackline_comment(const uint8_t *line, size_t line_len);

/*
 * Down: a GPS line becomes one of version 01, without FR, HC, FRC and its comment. trackline_read gives HC and FRC, where
 * they are to be had again. share/doc/trackline/VERSION-01.md tells the form: 103 columns and a comment of up to 25 bytes.
 * Neither way takes or writes a line end.
 *
 * Tried in this order: 12, 14, 13, 7, 8 as by trackline_read; 25 for a letter other than G; 9 if fewer than
 * TRACKLINE_OLD_BYTES bytes are lent.
 */
uint32_t trackline_down(const uint8_t *line, size_t line_len, uint8_t *old, size_t old_len);

/*
 * Up: a line of version 01 becomes one of 113 columns, with the letter G, FR 0 and the hc and frc1 to frc3 given; its comment is
 * left out. Down and up again, with the HC and FRC that were dropped, restores the 113 columns.
 *
 * Tried in this order: 12 if old_len is not 103 to 128; 14 for another CK; 13 for a column 1 that is not blank, or a character
 * not allowed in its column; 7 for a label, the given hc or a given character of FRC out of its range; 8 as for trackline_read; 9 if fewer than TRACKLINE_LINE_BYTES bytes are lent. Numbers filled with blanks are 13: cggtts
 * convert takes these.
 */
uint32_t trackline_up(const uint8_t *old, size_t old_len, uint8_t hc, uint8_t frc1, uint8_t frc2, uint8_t frc3, uint8_t *line,
                      size_t line_len);

/*
 * A line file has 115 bytes a line: 113 columns, carriage return, line feed. Its lines ascend strictly by four keys: MJD,
 * start, constellation letter (C, E, G, J, R), satellite. A file without a byte is one too.
 */
#define TRACKLINE_FILE_LINE_BYTES 115

/*
 * One line file from two: the lines of both, a line that is in both once. It is written to the lent file, and how many
 * bytes it has, which may be none, to *written. Both lengths together are room enough. first and second may be the same;
 * written must not be NULL.
 *
 * Tried in this order: the first file, then the second, then 15, then 17. In a file the earliest line decides, by 12, 14,
 * 13, 7, 8, 13, 16. 12 is a last line of under 115 bytes, the second 13 another line end; 16 is for keys that are not above
 * those of the line before. 15: two lines have the same keys and differ. 17: the lent file is shorter than the result.
 *
 * The number does not tell which file it is of: hand each over alone, with NULL and 0 for the other and for the lent file;
 * 0 or 17 then says that it is a line file.
 */
uint32_t trackline_merge(const uint8_t *first, size_t first_len, const uint8_t *second, size_t second_len,
                         uint8_t *file, size_t file_len, size_t *written);

/* As many lines as a file may have whose common view is taken. */
#define TRACKLINE_FILE_MOST_LINES 10000

/*
 * The places of a common view's report. A pair is a line of each file, both with the same four keys and the same TRKL;
 * its difference is REFSYS of the first file less REFSYS of the second, in 0.1 ns. The mean is SUM over PAIRS: it is not
 * divided, so nothing is rounded, and the reports of two weeks join to one: PAIRS and SUM are added, the lesser SMALLEST and
 * the greater LARGEST taken.
 */
enum trackline_report {
    TRACKLINE_REPORT_PAIRS,    /* how many pairs there are, from 1 up */
    TRACKLINE_REPORT_SUM,      /* of their differences, 0.1 ns */
    TRACKLINE_REPORT_SMALLEST, /* difference, 0.1 ns */
    TRACKLINE_REPORT_LARGEST,  /* difference, 0.1 ns */
    TRACKLINE_REPORT_NUMBERS   /* how many there are: 4 */
};

/*
 * The common view of two line files: its report is written to the first 4 of the lent numbers. first and second may be the
 * same. Lines of the same keys with another TRKL are no pair; the other columns are not compared.
 *
 * Tried in this order: 19 if either file has more than TRACKLINE_FILE_MOST_LINES * TRACKLINE_FILE_LINE_BYTES bytes,
 * whatever stands in it; the first file, then the second, each as trackline_merge tries it; 18 if there is no pair; 9 if
 * fewer than 4 numbers are lent. Each file handed alone to trackline_merge tells which one is to blame. Its line,
 * counted from 1, is the least k for which the first k * 115 bytes of the file, or all of it, are refused.
 */
uint32_t trackline_view(const uint8_t *first, size_t first_len, const uint8_t *second, size_t second_len,
                        int64_t *report, size_t report_len);

/*
 * A store keeps the delays of a receiver by date: share/doc/trackline/DELAYS.md has its bytes. A group of version 1 has INT,
 * CAB and REF; one of version 2 also GD, which reads as 0 from version 1. The starts are strictly rising, any number of 32
 * bits; a delay has the limit TRACKLINE_MOST_CORRECTION. A store of no entry is one too: its version and a count of 0.
 */
#define TRACKLINE_STORE_MOST_ENTRIES 1000
#define TRACKLINE_STORE_AT_VERSION 0
#define TRACKLINE_STORE_WIDTH_VERSION 2
#define TRACKLINE_STORE_AT_COUNT 2
#define TRACKLINE_STORE_WIDTH_COUNT 2
#define TRACKLINE_STORE_AT_STARTS 4 /* start k, from 0, at 4 + 4 k; n starts are followed by the groups */
#define TRACKLINE_STORE_WIDTH_START 4
#define TRACKLINE_STORE_GROUP_1 3 /* delays of an entry in version 1, and in version 2; each has TRACKLINE_WIDTH_PS bytes */
#define TRACKLINE_STORE_GROUP_2 4
#define TRACKLINE_STORE_MOST_BYTES 36004
#define TRACKLINE_STORE_BYTES_1_OF(n) (4 + 28 * (n))
#define TRACKLINE_STORE_BYTES_2_OF(n) (4 + 36 * (n))

/* The places of the delays in force. */
enum trackline_delays_place {
    TRACKLINE_DELAYS_INT,
    TRACKLINE_DELAYS_CAB,
    TRACKLINE_DELAYS_REF,
    TRACKLINE_DELAYS_GD,
    TRACKLINE_DELAYS_NUMBERS /* how many there are: 4 */
};

/*
 * The delays in force on a date, those of the latest start not after it, are written to the first 4 of the lent numbers.
 * Tried in this order: 20 if the store has a version other than 1 and 2, a count above 1000, another length than
 * these make, starts that are not strictly rising, or a delay beyond its limit in any entry; 21 if no start is early
 * enough, as in a store of no entry; 9 if fewer than 4 numbers are lent.
 */
uint32_t trackline_delays(const uint8_t *store, size_t store_len, uint32_t mjd, int64_t *delays, size_t delays_len);

/*
 * The store with one entry more, of the same version, is written to the lent bytes, and how many it has to *written. Its
 * length is 28 more in version 1 and 36 more in version 2; TRACKLINE_STORE_MOST_BYTES are room for any.
 *
 * Tried in this order: 20 for the store, as above, for a new delay beyond its limit and for a gd other than 0 in version
 * 1; 22 if mjd is not later than the last start or there are 1000 entries; 9 if too few bytes are lent. A refusal leaves
 * *written too as it was. written must not be NULL. To begin a store append to its four bytes, 2 0 0 0.
 */
uint32_t trackline_append(const uint8_t *store, size_t store_len, uint32_t mjd, int64_t intdly, int64_t cabdly, int64_t refdly,
                          int64_t gd, uint8_t *longer, size_t longer_len, size_t *written);

/* So many lines trackline_day keeps on its stack, at most, while it judges the blocks. */
#define TRACKLINE_DAY_KEPT 10000

/*
 * So many bytes of stack a call of trackline_day needs at most, however few the blocks; measured, not proved. Too little is no
 * refusal: the system ends the process. The call touches its stack page by page from above, so that a guard page below the
 * thread's stack catches it and nothing else is overwritten. pthread_attr_setstacksize with twice as many is enough for a thread
 * that does little else, and so are the usual 8 MiB.
 */
#define TRACKLINE_DAY_STACK 1200000

/*
 * A day at once, or a set of many dates: the lines of hire blocks that stand back to back, each as long as its own sizes make
 * it, as a line file. It is written to the lent file, and how many bytes it has to *written: TRACKLINE_FILE_LINE_BYTES, 115, for
 * each block. The line of each block is the one that trackline_block makes of it. No block makes an empty file and 0, whatever
 * is lent.
 *
 * Either all blocks are accepted, or nothing is written and the first that offends is named in *block, counted from 0. Each
 * block in turn is tried as trackline_block tries it, without its 9. A last one that is cut is 11; where its first four bytes
 * are there and are no sizes it is 1. Then 16 is tried: MJD, start, letter and satellite, in this order, are not above those of
 * the block before. Behind all blocks comes 9 if too few bytes are lent, with the number of blocks in *block.
 *
 * Where the set is accepted *written is set and *block keeps what it had; where it is refused *block is set and *written keeps
 * what it had. Neither may be NULL. The two, and what is lent, must not overlap each other or the blocks.
 *
 * There is no heap in the library, so that lines are kept on the stack: a thread has to have TRACKLINE_DAY_STACK bytes of it
 * left. 1.10.0 needed less, 500,000: a thread that was made for that must be given more. A program whose thread has less makes
 * the call in a thread with more, as the example day.c does. Or it calls trackline_block for each block and puts "\r\n" behind
 * each line; the order is then the caller's to test, and trackline_merge of that file and an empty one tests it.
 *
 * A set may have any number of blocks. Those behind the first TRACKLINE_DAY_KEPT are computed twice, once to be judged and once
 * to be written. None of the first is, whatever the blocks' lengths. Fewer lines are kept, 32 or 1024, where no more can be
 * written, and less time goes into clearing them: where file_len has room for no more lines of 115 bytes, or blocks_len holds no
 * more blocks of 698, the shortest.
 *
 * A set of more than TRACKLINE_DAY_KEPT blocks is quicker in parts of so many. Each part begins with the last block of the part
 * before, so that 16 is tried between them too. The line of that block is written twice, and is the same. All or nothing then
 * holds of each part alone: one that was written stays where a later one is refused, and *block counts within its part.
 */
uint32_t trackline_day(const uint8_t *blocks, size_t blocks_len, uint8_t *file, size_t file_len, size_t *written, size_t *block);

#ifdef __cplusplus
}
#endif

#endif
