/* A date and a time zone in user bits (SMPTE 309M): two decimal digits each of day, month and year, and a code. */
#include "date.h"
#include <string.h>

/* The zones by their codes. The last have no hour of their own. */
static const struct zone {
    unsigned char code;
    char name[6];
} zones[] = {
    {0x00, "+0000"}, {0x01, "-0100"}, {0x02, "-0200"}, {0x03, "-0300"}, {0x04, "-0400"}, {0x05, "-0500"},
    {0x06, "-0600"}, {0x07, "-0700"}, {0x08, "-0800"}, {0x09, "-0900"}, {0x10, "-1000"}, {0x11, "-1100"},
    {0x12, "-1200"}, {0x13, "+1300"}, {0x14, "+1200"}, {0x15, "+1100"}, {0x16, "+1000"}, {0x17, "+0900"},
    {0x18, "+0800"}, {0x19, "+0700"}, {0x20, "+0600"}, {0x21, "+0500"}, {0x22, "+0400"}, {0x23, "+0300"},
    {0x24, "+0200"}, {0x25, "+0100"}, {0x0a, "-0030"}, {0x0b, "-0130"}, {0x0c, "-0230"}, {0x0d, "-0330"},
    {0x0e, "-0430"}, {0x0f, "-0530"}, {0x1a, "-0630"}, {0x1b, "-0730"}, {0x1c, "-0830"}, {0x1d, "-0930"},
    {0x1e, "-1030"}, {0x1f, "-1130"}, {0x2a, "+1130"}, {0x2b, "+1030"}, {0x2c, "+0930"}, {0x2d, "+0830"},
    {0x2e, "+0730"}, {0x2f, "+0630"}, {0x3a, "+0530"}, {0x3b, "+0430"}, {0x3c, "+0330"}, {0x3d, "+0230"},
    {0x3e, "+0130"}, {0x3f, "+0030"}, {0x32, "+1245"}, {0x28, "TP-03"}, {0x29, "TP-02"}, {0x30, "TP-01"},
    {0x31, "TP-00"}, {0x38, "+XXXX"},
};
enum { ZONES = sizeof zones / sizeof *zones, YEARS = 100 };

/* Those of no zone are read as the first, and a name of none is written as it. */
void date_of_frame(SMPTETimecode *stime, const LTCFrame *frame) {
    unsigned code = frame->user7 + 16 * frame->user8;
    int zone = ZONES;
    while (--zone > 0 && zones[zone].code != code) {
    }
    stime->years = (unsigned char)(frame->user5 + 10 * frame->user6);
    stime->months = (unsigned char)(frame->user3 + 10 * frame->user4);
    stime->days = (unsigned char)(frame->user1 + 10 * frame->user2);
    memcpy(stime->timezone, zones[zone].name, sizeof stime->timezone);
}

static void set_date(LTCFrame *frame, unsigned years, unsigned months, unsigned days) {
    frame->user6 = years / 10;
    frame->user5 = years - 10 * frame->user6;
    frame->user4 = months / 10;
    frame->user3 = months - 10 * frame->user4;
    frame->user2 = days / 10;
    frame->user1 = days - 10 * frame->user2;
}

void date_to_frame(LTCFrame *frame, const SMPTETimecode *stime) {
    int zone = ZONES;
    while (--zone > 0 && strncmp(zones[zone].name, stime->timezone, 5) != 0) {
    }
    set_date(frame, stime->years, stime->months, stime->days);
    frame->user7 = zones[zone].code % 16;
    frame->user8 = zones[zone].code / 16;
}

/* Each fourth year is a leap year, from 2000 on. */
static int days_of(int year, int month) {
    static const unsigned char days[] = {31, 28, 31, 30, 31, 30, 31, 31, 30, 31, 30, 31};
    return month == 2 && year % 4 == 0 ? 29 : days[month - 1];
}

/* A month that is none leaves the date as it is. */
void move_date(LTCFrame *frame, int days) {
    SMPTETimecode date;
    int year, month, day;
    date_of_frame(&date, frame);
    year = date.years;
    month = date.months;
    day = date.days + days;
    if (month < 1 || month > 12) {
        return;
    }
    if (days > 0 && day > days_of(year, month)) {
        day = 1;
        month = month % 12 + 1;
        year += month == 1;
    } else if (days < 0 && day < 1) {
        month = month == 1 ? 12 : month - 1;
        year -= month == 12;
        day = days_of((year + YEARS) % YEARS, month);
    }
    set_date(frame, (unsigned)(year + YEARS) % YEARS, (unsigned)month, (unsigned)day);
}
