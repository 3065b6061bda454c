/* Rows of dates, times and timestamps, and of their parts; the numbers are those of PostgreSQL's texts. */
#include <stdio.h>
#include <string.h>

#include "support.h"

static const struct date_row {
    int32_t days;
    int64_t year;
    uint32_t month, day;
} date_rows[] = {
    {0, 2000, 1, 1},
    {59, 2000, 2, 29},
    {-1, 1999, 12, 31},
    {-10957, 1970, 1, 1},
    {424, 2001, 2, 28},
    {425, 2001, 3, 1},
    {-36466, 1900, 2, 28},
    {-36465, 1900, 3, 1},
    {-730119, 1, 1, 1},
    {-730120, 0, 12, 31},
    {-730485, 0, 1, 1},
    {-2451545, -4713, 11, 24},
    {2145031948, 5874897, 12, 31},
    {INT32_MAX - 1, 5881610, 7, 10},
    {INT32_MIN + 1, -5877611, 6, 23},
};

static const struct date_parts_row {
    int64_t year;
    uint32_t month, day;
} no_dates[] = {
    {2000, 0, 1},   {2000, 13, 1},  {2000, 1, 0},        {2000, 1, 32},        {2000, 2, 30},
    {1999, 2, 29},  {1900, 2, 29},  {2000, 4, 31},       {2000, UINT32_MAX, 1}, {2000, 1, UINT32_MAX},
    {5881610, 7, 11}, {-5877611, 6, 22}, {INT64_MAX, 12, 31}, {INT64_MIN, 1, 1},
};

static void try_dates(void)
{
    for (size_t i = 0; i < sizeof date_rows / sizeof *date_rows; i++) {
        struct date_row row = date_rows[i];
        struct pgc_date_parts parts;
        int32_t days;
        expect(!pgc_date_parts(row.days, &parts), "the parts", "a date", i, "a fault");
        bool is_same = parts.year == row.year && parts.month == row.month && parts.day == row.day;
        expect(is_same, "the parts", "a date", i, "others");
        expect(!pgc_date_of_parts(&parts, &days) && days == row.days, "the number", "a date", i, "another");
    }
    for (size_t i = 0; i < sizeof no_dates / sizeof *no_dates; i++) {
        struct pgc_date_parts parts = {no_dates[i].year, no_dates[i].month, no_dates[i].day};
        int32_t days = 7;
        expect(pgc_date_of_parts(&parts, &days) == PGC_TRANSMIT && days == 7, "no date", "a row", i, "one");
    }
    struct pgc_date_parts same = {7, 8, 9};
    expect(pgc_date_parts(INT32_MAX, &same) == PGC_DECODE && same.year == 7, "the parts", "infinity", 0, "some");
    expect(pgc_date_parts(INT32_MIN, &same) == PGC_DECODE && same.day == 9, "the parts", "-infinity", 0, "some");
}

static const struct time_row {
    int64_t microseconds;
    struct pgc_time_parts parts;
} time_rows[] = {
    {0, {0, 0, 0, 0}},
    {1, {0, 0, 0, 1}},
    {59999999, {0, 0, 59, 999999}},
    {60000000, {0, 1, 0, 0}},
    {3600000000, {1, 0, 0, 0}},
    {45296789012, {12, 34, 56, 789012}},
    {86399999999, {23, 59, 59, 999999}},
    {86400000000, {24, 0, 0, 0}},
};

static const struct pgc_time_parts no_times[] = {
    {24, 0, 0, 1}, {24, 0, 1, 0}, {24, 1, 0, 0}, {25, 0, 0, 0}, {0, 60, 0, 0}, {0, 0, 60, 0}, {0, 0, 0, 1000000},
    {UINT32_MAX, UINT32_MAX, UINT32_MAX, UINT32_MAX},
};

static bool is_time(struct pgc_time_parts a, struct pgc_time_parts b)
{
    return a.hour == b.hour && a.minute == b.minute && a.second == b.second && a.microsecond == b.microsecond;
}

static void try_times(void)
{
    static const int64_t none[] = {-1, 86400000001, INT64_MAX, INT64_MIN};
    for (size_t i = 0; i < sizeof time_rows / sizeof *time_rows; i++) {
        struct pgc_time_parts parts;
        int64_t number;
        expect(!pgc_time_parts(time_rows[i].microseconds, &parts), "the parts", "a time", i, "a fault");
        expect(is_time(parts, time_rows[i].parts), "the parts", "a time", i, "others");
        bool is_back = !pgc_time_of_parts(&parts, &number) && number == time_rows[i].microseconds;
        expect(is_back, "the number", "a time", i, "another");
    }
    for (size_t i = 0; i < sizeof none / sizeof *none; i++) {
        struct pgc_time_parts parts = {7, 7, 7, 7}, same = parts;
        bool keeps = pgc_time_parts(none[i], &parts) == PGC_DECODE && is_time(parts, same);
        expect(keeps, "the parts", "no time", i, "some");
    }
    for (size_t i = 0; i < sizeof no_times / sizeof *no_times; i++) {
        int64_t number = 7;
        expect(pgc_time_of_parts(&no_times[i], &number) == PGC_TRANSMIT && number == 7, "no time", "a row", i, "one");
    }
}

static const struct timestamp_row {
    int64_t microseconds;
    struct pgc_timestamp_parts parts;
} timestamp_rows[] = {
    {0, {{2000, 1, 1}, {0, 0, 0, 0}}},
    {-1, {{1999, 12, 31}, {23, 59, 59, 999999}}},
    {-86400000000, {{1999, 12, 31}, {0, 0, 0, 0}}},
    {-86400000001, {{1999, 12, 30}, {23, 59, 59, 999999}}},
    {-946684800000000, {{1970, 1, 1}, {0, 0, 0, 0}}},
    {5097600000000 + 45296789012, {{2000, 2, 29}, {12, 34, 56, 789012}}},
    {INT64_MAX - 1, {{294277, 1, 9}, {4, 0, 54, 775806}}},
    {INT64_MIN + 1, {{-290278, 12, 22}, {19, 59, 5, 224193}}},
};

static const struct pgc_timestamp_parts no_timestamps[] = {
    {{2000, 1, 1}, {24, 0, 0, 0}},        {{2000, 2, 30}, {0, 0, 0, 0}},
    {{2000, 1, 1}, {0, 0, 60, 0}},        {{294277, 1, 9}, {4, 0, 54, 775807}},
    {{-290278, 12, 22}, {19, 59, 5, 224192}}, {{INT64_MAX, 1, 1}, {0, 0, 0, 0}},
};

static bool is_timestamp(struct pgc_timestamp_parts a, struct pgc_timestamp_parts b)
{
    bool is_date = a.date.year == b.date.year && a.date.month == b.date.month && a.date.day == b.date.day;
    return is_date && is_time(a.time, b.time);
}

static void try_timestamps(void)
{
    for (size_t i = 0; i < sizeof timestamp_rows / sizeof *timestamp_rows; i++) {
        struct pgc_timestamp_parts parts;
        int64_t number;
        expect(!pgc_timestamp_parts(timestamp_rows[i].microseconds, &parts), "the parts", "a timestamp", i, "a fault");
        expect(is_timestamp(parts, timestamp_rows[i].parts), "the parts", "a timestamp", i, "others");
        bool is_back = !pgc_timestamp_of_parts(&parts, &number) && number == timestamp_rows[i].microseconds;
        expect(is_back, "the number", "a timestamp", i, "another");
    }
    for (size_t i = 0; i < sizeof no_timestamps / sizeof *no_timestamps; i++) {
        int64_t number = 7;
        uint32_t fault = pgc_timestamp_of_parts(&no_timestamps[i], &number);
        expect(fault == PGC_TRANSMIT && number == 7, "no timestamp", "a row", i, "one");
    }
    struct pgc_timestamp_parts parts = {{7, 7, 7}, {7, 7, 7, 7}}, same = parts;
    bool keeps = pgc_timestamp_parts(INT64_MAX, &parts) == PGC_DECODE && is_timestamp(parts, same);
    expect(keeps, "the parts", "infinity", 0, "some");
    keeps = pgc_timestamp_parts(INT64_MIN, &parts) == PGC_DECODE && is_timestamp(parts, same);
    expect(keeps, "the parts", "-infinity", 0, "some");
}

void try_parts(void)
{
    try_dates();
    try_times();
    try_timestamps();
}
