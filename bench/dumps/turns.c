#include "turns.h"
#include "pairs.h"

turns turns_of(const uint64_t *keys, size_t length, uint64_t *links) {
    turns all = {0, 0, 0, 0};
    size_t sum = 0;
    memset(links, 0, 2 * length * sizeof *links);
    for (size_t i = 1; i < length; i++) {
        const uint64_t key = keys[i];
        uint64_t rest = key;
        size_t node = 0, made = 0;
        if (key == 0) continue;
        while (keys[node] != key) {
            uint64_t *const link = &links[2 * node + rest % 2];
            made++;
            if (*link == 0) {
                *link = i;
                node = i;
            } else {
                node = *link;
                rest /= 2;
            }
        }
        all.doubled |= node != i;
        all.searches++;
        sum += made;
        if (made > all.most) all.most = made;
    }
    all.mean = all.searches == 0 ? 0 : (double)sum / (double)all.searches;
    return all;
}

void page_keys(const oaledva_board *b, uint64_t *keys) {
    for (size_t f = 0; f < b->frames; f++) {
        const uint64_t page = b->words[f] / 4;
        keys[f] = f >= b->uncached && b->words[f] % 2 == 1 && page >= 0x200000 && page <= 0xFFBFFFFF ? page : 0;
    }
}

void line_keys(const oaledva_board *b, uint64_t *keys) {
    for (size_t i = 0; i < b->lines; i++) keys[i] = pairs_holds(b, i) ? b->records[2 * i + 1] / 8 + 1 : 0;
}
