// The logs under test: the archive, and wrong ones made from it by one change each, which the cut test must catch.
#ifndef LOGS_H
#define LOGS_H

#include "under_test.h"

extern const log_under_test archive;

// The wrong ones, up to one without a name.
extern const log_under_test mutants[];

#endif
