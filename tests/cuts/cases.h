// Cases: where a log starts and what is done to it, as values and as text.
//
// As text: `RING START OPERATION ..`, where START is `setup` or `at:HEAD:TAIL:first` (or `second`), and an operation is `aN`
// append N bytes, `+N` advance by N, `t` advance to the tail, `vP` advance to position P, `R` read all, `rP:N` read N bytes from
// P, `o` reopen. An operation with `!D` or `!D:P,..` after it is cut: D of its writes were flushed, and of the pending ones the
// pieces P arrived. Where more than one of them touches a piece, `P.V` says which of its values it has.
#ifndef CASES_H
#define CASES_H

#include "device.h"

typedef enum { APPEND, ADVANCE_BY, ADVANCE_TO_TAIL, ADVANCE_TO, READ_ALL, READ, REOPEN } kind;

typedef struct {
    kind kind;
    uint64_t a, b;
} action;

typedef struct {
    action action;
    bool is_cut;
    cut cut;
} operation;

typedef struct {
    bool set_up;
    uint64_t head, tail;
    bool second;
} beginning;

enum { LONGEST = 16 };

typedef struct {
    uint64_t ring;
    beginning start;
    unsigned count;
    operation operations[LONGEST];
} test_case;

enum { CASE_TEXT = 1024 };

void case_text(const test_case *c, char text[CASE_TEXT]);

// Answers whether the text is a case.
bool case_of_text(const char *text, test_case *c);

bool same_cut(const cut *a, const cut *b);

// The actions of which sequences are made; answers how many.
enum { ACTIONS = 128 };
unsigned sequence_actions(uint64_t ring, action actions[ACTIONS]);

// The changes that are tried on each shape.
unsigned shape_changes(uint64_t ring, uint64_t head, uint64_t tail, action actions[ACTIONS]);

// Calls `visit` with every shape of a log: every head modulo the ring, every number of kept bytes and both headers, with low
// positions, with positions about 2^32 and 2^63, and with tails up to 2^64 - 1. Ends at the first for which it answers false.
bool each_shape(uint64_t ring, bool visit(void *context, uint64_t ring, beginning start), void *context);

#endif
