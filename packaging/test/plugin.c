/* A plug-in with the archive inside: it offers plugin_gains to its host and should offer nothing of the library. */
#include <masoritun.h>

int plugin_gains(const float *levels, size_t bands, uint16_t *gains);

int plugin_gains(const float *levels, size_t bands, uint16_t *gains) {
    const mst_guard guard = mst_guard_enter();
    const uint64_t answer = mst_split(levels, bands, gains, bands);
    mst_guard_leave(guard);
    return mst_number(answer) == MST_DONE;
}
