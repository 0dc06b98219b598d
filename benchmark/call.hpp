// How the archive is called. Results of more than two words come back in memory whose address is handed over: on x86-64 as a first argument, and so the
// archive has it. On another processor, for which benchmark/archive compiles the same module, C may hand it over elsewhere, so it is spelt out here.
#pragma once

template <class Result, class... Words, class... Given>
static inline Result call(Result (*function)(Words...), Given... given) {
#ifndef __x86_64__
    if constexpr (sizeof(Result) > 2 * sizeof(void*)) {
        Result result;
        reinterpret_cast<Result* (*)(Result*, Words...)>(function)(&result, static_cast<Words>(given)...);
        return result;
    }
#endif
    return function(static_cast<Words>(given)...);
}
