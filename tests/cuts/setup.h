// What a cut during set-up leaves, by what stood on the medium before: the rows of the table, each tried on every shape of a log
// on rings of 1 to 12 bytes.
#ifndef SETUP_H
#define SETUP_H

#include "report.h"

// "a log, second header live": "the old log until the selector is switched, then the new one"
bool second_header_live(char text[TEXT]);

// "a log, first header live": "the old log, damaged, or the new one as soon as its header is whole". A torn header that is
// neither differs from one of the two in one piece, and the checksum sees that.
bool first_header_live(char text[TEXT]);

// "neither selector value": "damaged until the selector, then the new log"
bool neither_selector(char text[TEXT]);

// "first selector, header damaged": "damaged, the new log, or a log whose header is a mixture". One field of a good header is
// changed, so a mixture is that good header again: the cut wrote just that field back.
bool first_header_damaged(char text[TEXT]);

// A cut when set-up has been answered: the new log.
bool set_up_is_kept(char text[TEXT]);

// Set-up without its flush before the selector, or without the one after it: each of the two must be caught.
bool caught_without_first_flush(char text[TEXT]);
bool caught_without_last_flush(char text[TEXT]);

#endif
