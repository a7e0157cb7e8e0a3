// A C++ program that is linked with all libraries: a value that is dropped, a slot that is reserved,
// and a verdict.
#include <cstdint>
#include <cstdio>
#include <cstring>
#include <yachtbanyan.h>
#include <yachtdirect.h>
#include <yachtjudge.h>

static void drop(void *, void *with) { ++*static_cast<int *>(with); }

int main() {
    int value = 0, drops = 0;
    yacht_table *table = nullptr;
    yacht_verdict verdict;
    const unsigned char *script = reinterpret_cast<const unsigned char *>("sparse 1\n");
    const unsigned char *text = reinterpret_cast<const unsigned char *>("sparse 0\n");
    unsigned char note[1];
    bool is_right = yacht_open(&table, 1, 1, 0, drop, &drops) == YACHT_DONE;
    is_right = is_right && yacht_insert(yacht_handle_of(table, 0), &value) == 0;
    yacht_free(table);
    is_right = is_right && drops == 1 && !std::strcmp(yacht_strerror(YACHT_FULL), "every slot has a value");
    is_right = is_right && yacht_judge(script, 9, text, 9, YACHT_STATES, YACHT_MEMORY, note, 0, &verdict) == YACHT_LEGAL;
    yacht_direct machine;
    std::uint64_t key = 0;
    std::uint32_t slot = 9;
    is_right = is_right && yacht_direct_open(&machine, 1, 0, 0) == YACHT_DIRECT_DONE;
    is_right = is_right && yacht_direct_reserve(&machine, &key, &slot) == YACHT_DIRECT_DONE && slot == yacht_direct_slot_of(key);
    if (is_right) yacht_direct_free(machine);
    std::printf("%s %s %s ", YACHT_VERSION, YACHT_DIRECT_VERSION, YACHT_JUDGE_VERSION);
    std::printf("%s %s %s\n", yacht_version(), yacht_direct_version(), yacht_judge_version());
    return !is_right;
}
