/* The layouts of the header's structs, the header's codes and their reasons, a line for each: layout.rs prints the same of the crate. */
#include "blackboxlog.h"
#include <stdio.h>

#define STRUCT(type) printf(#type " %zu\n", sizeof(type))
#define FIELD(type, field) printf(#type "." #field " %zu %zu\n", offsetof(type, field), sizeof(((type *)0)->field))
#define CODE(name) printf(#name " %d %s\n", BBL_##name, bbl_reason(BBL_##name))

int main(void)
{
    STRUCT(bbl_handle);
    FIELD(bbl_handle, live);
    FIELD(bbl_handle, head);
    FIELD(bbl_handle, tail);
    FIELD(bbl_handle, size);
    STRUCT(bbl_reply);
    FIELD(bbl_reply, code);
    FIELD(bbl_reply, number);
    FIELD(bbl_reply, other);
    FIELD(bbl_reply, steps);
    FIELD(bbl_reply, handle);
    STRUCT(bbl_stepped);
    FIELD(bbl_stepped, code);
    FIELD(bbl_stepped, at);
    FIELD(bbl_stepped, length);
    CODE(TOO_SHORT);
    CODE(BAD_SELECTOR);
    CODE(BAD_CHECKSUM);
    CODE(SIZE_ZERO);
    CODE(HEAD_PAST_TAIL);
    CODE(TOO_FULL);
    CODE(WRONG_SIZE);
    CODE(NO_ROOM);
    CODE(BEFORE_HEAD);
    CODE(BEYOND_TAIL);
    CODE(BAD_HANDLE);
    CODE(SHORT_PLAN);
    CODE(MISALIGNED);
    CODE(OVERLAP);
    CODE(BROKEN_PLAN);
    printf("PLAN_WORDS %d\n", BBL_PLAN_WORDS);
    printf("VERSION %s\n", BBL_VERSION);
    return 0;
}
