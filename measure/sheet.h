/* The words of a bench sheet: its header lines, and how each column writes what rows.h counts. */

#ifndef SHEET_H
#define SHEET_H

#include "rows.h"

/* The first line of a sheet without its CRLF. */
#define SHEET_HEADER "pair,request,RetToSrc,DoNotGoToSD,excl,tag,response,TagOp,RespErr,forward,final,fwdErr"

/* The first line of the output without its CRLF. */
#define OUTPUT_HEADER "event,verdict,duty,states"

/* The first column of a list as text. */
#define TEXT(name, ...) #name,

/* The names of the states, and how one not seen is written. */
static const char *const state_names[STATES + 1] = {"I", "UC", "UCE", "UD", "UDP", "SC", "SD", "?"};

/* The names of the requests. */
static const char *const request_names[REQUESTS] = {REQUEST_LIST(TEXT)};

/* The names of the tag states, and how one not seen is written. */
static const char *const tag_names[TAGS] = {"Invalid", "Clean", "Dirty", "?"};

/* The names of the answers to Home. */
static const char *const response_names[RESPONSES] = {RESPONSE_LIST(TEXT)};

/* The names of the tag operations. */
static const char *const tag_op_names[TAG_OPS] = {"Invalid", "Transfer", "Update", "Match"};

/* The names of what an error field says. */
static const char *const error_names[ERRORS] = {"OK", "EXOK", "DERR", "NDERR"};

/* How no forwarded data is written, and its error field too. */
#define NOTHING "-"

/* The names of the data forwarded, and how none is written. */
static const char *const forward_names[FORWARDS] = {NOTHING, FORWARD_LIST(TEXT)};

/* The names of the verdicts. */
static const char *const verdict_names[VERDICTS] = {"explained", "unexplained", "not judged"};

/* The names of the duties. */
static const char *const duty_names[DUTIES] = {"none", "Home", "Requester", "lost", "discarded"};

#endif
