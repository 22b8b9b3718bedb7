// Where the library's memory comes from in the addon: an arena for each call.
#ifndef ARENA_H
#define ARENA_H

#include <stdbool.h>

// Gives back all memory that the library was lent on this thread since the last call of this, but for one chunk where `keeps_one` says so,
// which the next call on this thread begins with. The library may hold none of it.
void arena_end(bool keeps_one);

#endif
