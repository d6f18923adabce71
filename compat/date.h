/* date.h: a date and a time zone in user bits (SMPTE 309M), within the library. */
#ifndef DATE_H
#define DATE_H
#include "ltc.h"
void date_of_frame(SMPTETimecode *stime, const LTCFrame *frame);
void date_to_frame(LTCFrame *frame, const SMPTETimecode *stime);
void move_date(LTCFrame *frame, int days); /* one day on or back */
#endif
