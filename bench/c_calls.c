/* Every call of include/maple.h against a sorted array that this program keeps by itself: c_calls STEPS SEED.
 * It says what differed first and exits with 1, or prints how many answers it compared. */
#include "c_array.h"
#include "maple_log.h"

static void ask(struct maple_tree *t) {
    uint64_t index = draw(SPAN + 9), other = draw(SPAN + 9);
    struct maple_range got;
    uint32_t status = maple_load(t, index, &got);
    same_found(status, &got, load(index), __LINE__);
    SAME("an entry", maple_entry(t, index), status ? 0 : got.entry);
    status = maple_find(t, index, other, &got);
    same_found(status, &got, find(index, other), __LINE__);
    status = maple_next(t, index, other, &got);
    same_found(status, &got, next(index, other), __LINE__);
    status = maple_rfind(t, index, other, &got);
    same_found(status, &got, rfind(index, other), __LINE__);
    status = maple_prev(t, index, other, &got);
    same_found(status, &got, prev(index, other), __LINE__);
}

/* Many look-ups in one call: of none, of few, of as many as go down at once, and with fewer places than indexes, or more. */
static void ask_many(struct maple_tree *t) {
    uint64_t indexes[40], entries[40];
    size_t asked = draw(4) ? draw(40) : 8 * draw(5), places = draw(3) ? asked : draw(40);
    for (size_t k = 0; k < 40; k++) {
        indexes[k] = draw(20) ? draw(SPAN + 9) : draw(2) ? UINT64_MAX : UINT32_MAX;
        entries[k] = 7;
    }
    SAME("look-ups", maple_load_many(t, indexes, asked, entries, places), 0);
    for (size_t k = 0; k < 40; k++) {
        const struct maple_range *found = load(indexes[k]);
        SAME("an entry of many", entries[k], k >= asked || k >= places ? 7 : found ? found->entry : 0);
    }
}

static void whole(struct maple_tree *t) {
    struct maple_range got;
    uint64_t index = 0;
    for (size_t at = 0; at < count; at++) {
        SAME("a range of the walk", maple_find(t, index, UINT32_MAX, &got), 0);
        same_range(&got, list + at, __LINE__);
        index = got.last + 1;
    }
    SAME("the end of the walk", maple_find(t, index, UINT32_MAX, &got), ENOENT);
}

/* Two walks, one of which goes on now and then, with a store of what stands there already, and a query, between steps. */
static void walks(struct maple_tree *t) {
    struct maple_walk walk = {.next = draw(SPAN)}, other = {0}, kept;
    struct maple_range got;
    uint64_t word;
    size_t at = from(walk.next), behind = 0;
    for (; at < count; at++) {
        SAME("a step", maple_step(t, &walk, &got), 0);
        same_range(&got, list + at, __LINE__);
        if (draw(30) == 0) {
            uint32_t status = maple_step(t, &other, &got);
            same_found(status, &got, behind < count ? list + behind : 0, __LINE__);
            behind++;
        }
        if (draw(30) == 0) SAME("a store between", maple_store(t, list[at].first, list[at].last, list[at].entry, &word), 0);
        if (draw(30) == 0) SAME("a query between", maple_load(t, list[at].first, &got), 0);
    }
    SAME("the end of the walk", maple_step(t, &walk, &got), ENOENT); same_range(&got, &none, __LINE__);
    SAME("it has ended", walk.ended, 1);
    kept = walk;
    SAME("it stays so", maple_step(t, &walk, &got), ENOENT);
    SAME("as it was", memcmp(&kept, &walk, sizeof walk), 0);
    walk = (struct maple_walk){.next = UINT64_MAX};
    SAME("above all", maple_step(t, &walk, &got), ENOENT);
}

/* A walk in batches, each of so many places, with a step by itself and a store of what is there between them. */
static void walk_many(struct maple_tree *t) {
    struct maple_walk walk = {.next = draw(SPAN + 9)}, kept;
    struct maple_range got[40], one;
    uint64_t word;
    size_t at = from(walk.next), found;
    do {
        size_t places = draw(5) ? draw(40) : 0, left = count - at, wanted = places < left ? places : left;
        for (size_t k = 0; k < 40; k++) got[k] = (struct maple_range){7, 7, 7};
        kept = walk;
        SAME("a batch", maple_step_many(t, &walk, got, places, &found), wanted || !walk.ended ? 0 : ENOENT);
        SAME("so many", found, wanted);
        for (size_t k = 0; k < 40; k++) same_range(got + k, k < wanted ? list + at + k : &(struct maple_range){7, 7, 7}, __LINE__);
        if (!places) SAME("it stays", memcmp(&kept, &walk, sizeof walk), 0);
        at += wanted;
        if (places > left) { SAME("it has ended", walk.ended, 1); break; }
        if (at < count && draw(9) == 0) SAME("a store between", maple_store(t, list[at].first, list[at].last, list[at].entry, &word), 0);
        if (at < count && draw(9) == 0) { SAME("a step between", maple_step(t, &walk, &one), 0); same_range(&one, list + at++, __LINE__); }
    } while (1);
    kept = walk;
    SAME("none is left", maple_step_many(t, &walk, got, 40, &found), ENOENT); SAME("none", found, 0);
    SAME("as it was", memcmp(&kept, &walk, sizeof walk), 0);
}

/* A walk up to a bound: it has ended as soon as no range is left. */
static void walk_to(struct maple_tree *t) {
    struct maple_walk walk = {.next = draw(SPAN + 9)};
    struct maple_range got;
    uint64_t max = draw(2) ? walk.next + draw(200) : draw(SPAN + 9);
    for (size_t at = from(walk.next); walk.next <= max && at < count && list[at].first <= max; at++) {
        SAME("a step", maple_step_to(t, &walk, max, &got), 0);
        same_range(&got, list + at, __LINE__);
        SAME("where it goes on", walk.ended, got.last >= max);
        if (walk.ended) break;
    }
    SAME("the end", maple_step_to(t, &walk, max, &got), ENOENT); same_range(&got, &none, __LINE__);
    SAME("it has ended", walk.ended, 1);
}

/* How the tree uses its rows, which a store of what is there changes by a call alone. */
static void rows_in(struct maple_tree *t, uint64_t rows) {
    struct maple_stats stats, after;
    struct maple_form form;
    uint64_t word;
    SAME("stats", maple_stats(t, &stats), 0); SAME("a check", maple_check(t, &form), 0);
    SAME("its rows", stats.rows, rows); SAME("all of them", stats.free + stats.live + stats.held, rows);
    SAME("in use", stats.live, form.rows); SAME("its height", stats.height, form.height);
    if (count) SAME("a store", maple_store(t, list[0].first, list[0].last, list[0].entry ? list[0].entry : 1, &word), 0);
    SAME("stats", maple_stats(t, &after), 0); SAME("a call more", after.calls, stats.calls + (count > 0)); SAME("as many", after.live, stats.live);
}

/* A tree of so many rows as hold so many ranges refuses no call for want of them while it has no more, whatever the calls. */
static void enough_rows(uint32_t kind) {
    SAME("no such tree", maple_rows_for(131008), UINT64_MAX); SAME("nor of more", maple_rows_for(UINT64_MAX), UINT64_MAX);
    SAME("so many for 50", maple_rows_for(50), 50 / 2 + 3 * 3 + 3);
    for (uint64_t most = 0; most < 700; most = 2 * most + 1) {
        struct maple_tree t = {0};
        struct maple_range was;
        uint64_t word, span = 3 * most + 4;
        count = 0;
        SAME("open", maple_open(&t, kind, maple_rows_for(most)), 0);
        for (int step = 0; step < 3000; step++) {
            uint64_t first = draw(3) ? draw(span) : draw(9), last = first + draw(3), entry = draw(4) ? 4096 + draw(9) : 0;
            if (count <= most && draw(5)) {
                SAME("a store", maple_store(&t, first, last, entry, &word), 0); SAME("over", word, over(first, last, entry));
            } else if (count) {
                size_t at = draw(count);
                struct maple_range there = list[at];
                if (count > most) { SAME("cleared", maple_clear(&t), 0); count = 0; continue; }
                SAME("an erase", maple_erase(&t, there.first, &was), 0);
                drop(at);
            }
        }
        maple_close(&t);
    }
    count = 0;
}

/* A store that keeps the reserve is refused where it adds ranges and the nodes are too few for them, and only there. */
static void store_in_reserve(struct maple_tree *t, uint64_t rows, uint64_t *calls) {
    static struct maple_range was[MOST];
    uint64_t first = draw(SPAN), last = first + draw(draw(5) ? 9 : 300), entry = draw(4) ? 4 * draw(2000) + 1 : 0, old, met = 7;
    size_t before = count;
    memcpy(was, list, before * sizeof *was);
    old = over(first, last, entry);
    if (count > before && maple_rows_for(count) > rows) {
        SAME("too many", maple_store_kept(t, first, last, entry, &met), ENOMEM); SAME("no entry", met, 0);
        memcpy(list, was, before * sizeof *was); count = before;
    } else {
        SAME("a store", draw(9) || count > before ? maple_store_kept(t, first, last, entry, &met) : maple_store(t, first, last, entry, &met), 0);
        SAME("over", met, old); ++*calls;
    }
}

/* A tree that keeps its reserve is filled until it refuses a range more, and no sooner. Then it is emptied in any order, and refuses
 * nothing that adds no range. A store by another export, after which the ranges are counted again, changes nothing of that. */
static void in_reserve(uint32_t kind) {
    struct maple_tree t = {0};
    struct maple_range was;
    struct maple_stats stats;
    uint64_t rows = 6 + draw(60), start = 7, calls = 0;
    SAME("closed", maple_store_kept(&t, 1, 2, 3, &start), EBADF); SAME("closed", start, 0); SAME("closed", maple_insert_kept(&t, 1, 2, 3), EBADF);
    SAME("closed", maple_alloc_kept(&t, 1, 0, 9, 4, &start), EBADF); SAME("closed", maple_ralloc_kept(&t, 1, 0, 9, 4, &start), EBADF);
    SAME("open", maple_open(&t, kind, rows), 0);
    for (int step = 0; step < 4000; step++) {
        uint64_t index = draw(SPAN);
        uint32_t more = maple_rows_for(count + 1) <= rows ? 0 : ENOMEM;
        if (!draw(50)) { SAME("no index", maple_store_kept(&t, index + 1, index, 8, &start), EINVAL); SAME("no entry", start, 0); calls++; }
        switch (draw(4)) {
        case 0:
            if (count) { size_t at = draw(count); SAME("an erase", maple_erase(&t, list[at].first, &was), 0); drop(at); calls++; }
            break;
        case 1:
            SAME("an insert", maple_insert_kept(&t, index, index, 8), more ? more : load(index) ? EEXIST : 0);
            if (!more) { calls++; if (!load(index)) over(index, index, 8); }
            break;
        case 2:
            if (kind == MAPLE_RANGE || kind == MAPLE_RANGE32) { store_in_reserve(&t, rows, &calls); break; }
            SAME("an allocation", draw(2) ? maple_alloc_kept(&t, 1, 0, SPAN, 8, &start) : maple_ralloc_kept(&t, 1, 0, SPAN, 8, &start), more);
            if (!more) { SAME("it was free", load(start) == 0, 1); over(start, start, 8); calls++; }
            break;
        default:
            store_in_reserve(&t, rows, &calls);
        }
        SAME("in reserve", count == 0 || maple_rows_for(count) <= rows, 1);
    }
    whole(&t);
    SAME("stats", maple_stats(&t, &stats), 0); SAME("no call more", stats.calls, calls);
    while (count) { size_t at = draw(count); SAME("emptied", maple_erase(&t, list[at].first, &was), 0); drop(at); }
    maple_close(&t);
}

/* A tree that keeps its reserve by the program is emptied in any order, and refuses nothing that adds no range. */
static void emptied(uint32_t kind) {
    struct maple_tree t = {0};
    struct maple_range was;
    uint64_t rows = 20 + draw(40), old;
    SAME("open", maple_open(&t, kind, rows), 0);
    for (int round = 0; round < 20; round++) {
        while (maple_rows_for(count + 2) <= rows) {
            uint64_t first = draw(SPAN), last = first + draw(9);
            SAME("a store in reserve", maple_store(&t, first, last, 8, &old), 0); over(first, last, 8);
        }
        for (uint64_t left = draw(2) ? 0 : draw(count); count > left;) {
            const struct maple_range r = list[draw(count)];
            uint64_t cut = draw(3) ? r.last : r.first + draw(r.last - r.first + 1);
            SAME("exactly", maple_store(&t, r.first, r.last, 4 * draw(2000) + 1, &old), 0);
            SAME("its entry", old, r.entry); over(r.first, r.last, 4);
            SAME("exactly", maple_store(&t, r.first, r.last, 4, &old), 0);
            if (draw(2)) {
                SAME("its begin goes", maple_store(&t, r.first, cut, 0, &old), 0); over(r.first, cut, 0);
            } else {
                SAME("an erase", maple_erase(&t, cut, &was), 0); over(r.first, r.last, 0);
            }
        }
    }
    SAME("clear", maple_clear(&t), 0);
    count = 0;
    maple_close(&t);
}

/* Opens another tree with the same map, in one of three ways, each refused first where it has to be. */
static void again(struct maple_tree *t, struct maple_tree *other, uint32_t kind) {
    static uint8_t bytes[1 << 22], more[1 << 22];
    struct maple_form form, read;
    size_t used = 7, size = 7;
    uint64_t at = 7;
    SAME("a check", maple_check(t, &form), 0);
    SAME("its ranges", form.ranges, count);
    switch (draw(3)) {
    case 0:
        if (form.rows) SAME("too few rows for a copy", maple_copy(t, other, form.rows - 1), EDOM);
        SAME("too many", maple_copy(t, other, MAPLE_MOST_ROWS + 1), EDOM);
        SAME("a copy", maple_copy(t, other, draw(2) ? 4096 : 4000), 0);
        SAME("a copy twice", maple_copy(t, other, 4096), EALREADY);
        SAME("its check", maple_check(other, &read), 0);
        SAME("its form", memcmp(&form, &read, sizeof form), 0);
        break;
    case 1:
        SAME("an image, too short", maple_image(t, bytes, form.rows ? 32 + form.rows : 31, &used), ERANGE);
        SAME("its length", used, 32 + form.rows * (kind < 2 ? 256 : 512));
        SAME("an image", maple_image(t, bytes, sizeof bytes, &size), 0);
        SAME("its length", size, used);
        SAME("a cut one", maple_open_image(other, bytes, size - 1, 4096), EBADMSG);
        if (form.rows) SAME("too few rows for it", maple_open_image(other, bytes, size, form.rows - 1), EDOM);
        SAME("an image opened", maple_open_image(other, bytes, size, 4096), 0);
        SAME("opened twice", maple_open_image(other, bytes, size, 4096), EALREADY);
        SAME("its image", maple_image(other, more, sizeof more, &used), 0);
        SAME("the same bytes", used == size && !memcmp(bytes, more, size), 1);
        break;
    default:
        if (count) {
            struct maple_range last = list[count - 1];
            list[count - 1].last = list[count - 1].first - 1 + (list[count - 1].first == 0);
            if (list[count - 1].last < list[count - 1].first) {
                SAME("no order", maple_build(other, kind, 4096, list, count, &at), EINVAL);
                SAME("where", at, count - 1);
            }
            list[count - 1] = last;
            SAME("no rows", maple_build(other, kind, 0, list, count, &at), EDOM); SAME("no place", at, 0);
        }
        SAME("no kind", maple_build(other, 4, 4096, list, count, &at), EINVAL); SAME("no place", at, 0);
        SAME("built", maple_build(other, kind, 4096, list, count, &at), 0); SAME("no place", at, 0);
        SAME("built twice", maple_build(other, kind, 4096, list, count, &at), EALREADY);
        SAME("its check", maple_check(other, &read), 0);
        SAME("its ranges", read.ranges, count);
    }
    whole(t);
    whole(other);
}

/* A store that tells all that it met, as far as there is room, whatever it came to. */
static void store_over(struct maple_tree *t) {
    uint64_t first = draw(SPAN), last = first + draw(draw(9) ? 60 : SPAN), entry = draw(5) ? draw(9000) : 0, word = 77, told = 77;
    struct maple_range met[9], unmet = {7, 7, 7};
    size_t room = draw(10), at, many = 0, i;
    if (draw(30) == 0) { uint64_t x = first; first = last + 1; last = x; }
    int bad = first > last || is_reserved(entry);
    for (at = from(first); first <= last && at + many < count && list[at + many].first <= last;) many++;
    for (i = 0; i < 9; i++) met[i] = unmet;
    SAME("a store over all", maple_store_over(t, first, last, entry, met, room, &told, &word), bad ? EINVAL : 0);
    SAME("so many", told, many);
    for (i = 0; i < 9; i++) same_range(met + i, i < room && i < many ? list + at + i : &unmet, __LINE__);
    SAME("the first of them", word, bad ? 0 : over(first, last, entry));
}

static void act(struct maple_tree *t, uint32_t kind) {
    uint64_t first = draw(SPAN), last = first + draw(12), entry = draw(5) ? draw(9000) : 0, word = 77, start = 0;
    uint64_t size = 1 + draw(9), min = draw(SPAN), max = min + draw(200);
    int wrong = draw(60) == 0, rooms = kind % 2;
    struct maple_range was = {7, 7, 7};
    if (wrong) { uint64_t x = first; first = last + 1; last = x; }
    int bad = first > last || is_reserved(entry), no_area = !rooms || max - min < size - 1, high = draw(2);
    size_t at;
    uint32_t status;
    switch (draw(8)) {
    case 0: case 1: case 2:
        switch (draw(3)) {
        case 0: status = maple_store(t, first, last, entry, &word); break;
        case 1: status = maple_store_pre(t, first, last, entry, &word); break;
        default:
            SAME("preallocate", maple_preallocate(t), 0);
            status = maple_store_prealloc(t, first, last, entry, &word);
        }
        SAME("a store", status, bad ? EINVAL : 0);
        SAME("what it met", word, bad ? 0 : over(first, last, entry));
        break;
    case 3:
        bad |= entry == 0;
        status = maple_insert(t, first, last, entry);
        SAME("an insert", status, bad ? EINVAL : held(first, last) ? EEXIST : 0);
        if (!status) over(first, last, entry);
        break;
    case 4: case 5:
        at = from(first);
        status = maple_erase(t, first, &was);
        same_found(status, &was, at < count && list[at].first <= first ? list + at : 0, __LINE__);
        if (!status) drop(at);
        break;
    case 6:
        status = high ? maple_rgap(t, size, min, max, &word) : maple_gap(t, size, min, max, &word);
        SAME("a gap", status, no_area ? EINVAL : room(size, min, max, high, &start) ? 0 : EBUSY);
        SAME("its start", word, status ? 0 : start);
        break;
    default:
        status = high ? maple_ralloc(t, size, min, max, entry, &word) : maple_alloc(t, size, min, max, entry, &word);
        SAME("an allocation", status, no_area || entry == 0 || is_reserved(entry) ? EINVAL : room(size, min, max, high, &start) ? 0 : EBUSY);
        SAME("its start", word, status ? 0 : start);
        if (!status) over(start, start + size - 1, entry);
    }
}

static void count_of_none(struct maple_tree *t) {
    struct maple_range met = {7, 7, 7}, unmet = met;
    uint64_t told = 7, word = 7;
    SAME("closed", maple_store_over(t, 1, 2, 3, &met, 1, &told, &word), EBADF); SAME("none met", told | word, 0); same_range(&met, &unmet, __LINE__);
}

static void closed(struct maple_tree *t) {
    struct maple_range r = {7, 7, 7};
    uint64_t word = 7;
    SAME("closed", maple_store(t, 1, 2, 3, &word), EBADF); SAME("closed", word, 0);
    SAME("closed", maple_store_pre(t, 1, 2, 3, &word), EBADF); SAME("closed", maple_insert(t, 1, 2, 3), EBADF);
    SAME("closed", maple_erase(t, 1, &r), EBADF); same_range(&r, &none, __LINE__);
    SAME("closed", maple_alloc(t, 1, 0, 9, 4, &word), EBADF); SAME("closed", maple_ralloc(t, 1, 0, 9, 4, &word), EBADF);
    SAME("closed", maple_gap(t, 1, 0, 9, &word), EBADF); SAME("closed", maple_rgap(t, 1, 0, 9, &word), EBADF);
    count_of_none(t);
    SAME("closed", maple_clear(t), EBADF); SAME("closed", maple_load(t, 1, &r), EBADF);
    SAME("closed", maple_entry(t, 1), 0);
    SAME("closed", maple_find(t, 1, 9, &r), EBADF); SAME("closed", maple_next(t, 1, 9, &r), EBADF);
    SAME("closed", maple_prev(t, 1, 0, &r), EBADF); SAME("closed", maple_rfind(t, 1, 0, &r), EBADF);
    SAME("closed", maple_preallocate(t), EBADF); SAME("closed", maple_store_prealloc(t, 1, 2, 3, &word), EBADF);
    struct maple_walk walk = {5, 0};
    struct maple_stats stats = {7, 7, 7, 7, 7, 7};
    struct maple_form form = {7, 7, 7};
    struct maple_tree copy = {0};
    uint8_t out[4] = {7, 7, 7, 7};
    size_t used = 7;
    SAME("closed", maple_step(t, &walk, &r), EBADF); SAME("the walk as it was", walk.next, 5); SAME("not ended", walk.ended, 0);
    uint64_t entries[2] = {7, 7};
    SAME("closed", maple_load_many(t, (uint64_t[]){1, 2}, 2, entries, 2), EBADF); SAME("closed", entries[0] + entries[1], 14);
    size_t found = 7;
    SAME("closed", maple_step_many(t, &walk, &r, 1, &found), EBADF); SAME("none", found, 0); SAME("the walk as it was", walk.next, 5);
    SAME("closed", maple_step_to(t, &walk, 9, &r), EBADF); SAME("the walk as it was", walk.next, 5); SAME("not ended", walk.ended, 0);
    SAME("closed", maple_stats(t, &stats), EBADF); SAME("no rows", stats.rows + stats.free + stats.live + stats.held + stats.height + stats.calls, 0);
    SAME("closed", maple_check(t, &form), EBADF); SAME("no form", form.height + form.rows + form.ranges, 0);
    SAME("closed", maple_copy(t, &copy, 9), EBADF); SAME("no copy", maple_clear(&copy), EBADF);
    SAME("closed", maple_image(t, out, 4, &used), EBADF); SAME("no bytes", used, 0); SAME("as before", out[0], 7);
    maple_close(t);
}

static void opens(void) {
    struct maple_tree t = {0};
    struct maple_range r;
    uint64_t word;
    closed(&t);
    SAME("no kind", maple_open(&t, 4, 100), EINVAL); closed(&t);
    SAME("too many rows", maple_open(&t, MAPLE_RANGE, MAPLE_MOST_ROWS + 1), EDOM); closed(&t);
    SAME("open", maple_open(&t, MAPLE_RANGE32, 100), 0);
    SAME("open twice", maple_open(&t, MAPLE_RANGE, 100), EALREADY);
    SAME("above 32 bits", maple_store(&t, 0, (uint64_t)UINT32_MAX + 1, 4, &word), EINVAL);
    SAME("to the top", maple_store(&t, 7, UINT32_MAX, 4, &word), 0);
    SAME("at the top", maple_load(&t, UINT32_MAX, &r), 0);
    SAME("its last", r.last, UINT32_MAX);
    SAME("clear", maple_clear(&t), 0);
    SAME("none left", maple_next(&t, 0, UINT32_MAX, &r), ENOENT);
    maple_close(&t); closed(&t);
    SAME("no rows", maple_open(&t, MAPLE_RANGE, 0), 0);
    SAME("so no range", maple_store(&t, 1, 1, 4, &word), ENOMEM); SAME("none there", maple_load(&t, 1, &r), ENOENT);
    SAME("clear all the same", maple_clear(&t), 0);
    maple_close(&t);
    /* a small tree is refused rows before long, and then holds what it held */
    int i, status = 0;
    SAME("a small tree", maple_open(&t, MAPLE_RANGE, 4), 0);
    for (i = 0; i < 200 && !status; i++) status = maple_store(&t, i * 10, i * 10 + 4, 8, &word);
    SAME("too few rows", status, ENOMEM);
    SAME("not stored", maple_load(&t, (i - 1) * 10, &r), ENOENT);
    SAME("stored", maple_load(&t, (i - 2) * 10, &r), 0);
    SAME("not ready", maple_preallocate(&t), ENOMEM);
    SAME("so no store", maple_store_prealloc(&t, 9, 9, 4, &word), ENOMEM);
    uint64_t told = 77;
    SAME("refused", maple_store_over(&t, 0, i * 10, 4, &r, 1, &told, &word), ENOMEM); SAME("what it met", told, i - 1); SAME("the first", r.last, 4);
    maple_close(&t);
}

static void texts(void) {
    static const char log[] = "mtlog 1\ntree a range\nstore a 0 99 1\nload a 45\nstore a 9 3 1\n";
    static uint8_t out[4096];
    const uint8_t *bytes = (const uint8_t *)log;
    size_t size = sizeof log - 1, used = 7;
    uint64_t calls = 7, reads = 7;
    SAME("too short", maple_replay(bytes, size, 65504, out, 3, &used), ERANGE);
    size_t want = used;
    SAME("replay", maple_replay(bytes, size, 65504, out, sizeof out, &used), 0);
    SAME("its length", used, want);
    SAME("verified", maple_verify(bytes, size, out, used, 65504, &calls, &reads), 0);
    SAME("its calls", calls, 2); SAME("its reads", reads, 1);
    SAME("cut", maple_verify(bytes, size, out, used - 1, 65504, &calls, &reads), EBADMSG);
    SAME("none told", calls + reads, 0);
    SAME("no log", maple_replay(bytes, size - 1, 65504, out, sizeof out, &used), EINVAL);
    SAME("no log", maple_verify(bytes, 0, out, used, 65504, &calls, &reads), EINVAL);
    SAME("rows", maple_replay(bytes, size, 3, out, sizeof out, &used), EDOM);
    SAME("rows", maple_verify(bytes, size, out, 0, 65505, &calls, &reads), EDOM);
}

/* What stands for a number or a pointer is an entry that no call refuses, and tells it again. */
static void entries(void) {
    for (uint64_t n = 0; n < 5000; n++) {
        uint64_t number = n < 2500 ? n : (UINT64_C(1) << 63) - 1 - n, address = 4 * n + 4;
        SAME("an entry of a number", maple_value(number) == 0 || is_reserved(maple_value(number)), 0);
        SAME("its number", maple_to_value(maple_value(number)), number); SAME("of a number", maple_is_value(maple_value(number)), 1);
        void *pointer = maple_to_ptr(address);
        SAME("an entry of a pointer", maple_ptr(pointer) == 0 || is_reserved(maple_ptr(pointer)), 0);
        SAME("its pointer", maple_to_ptr(maple_ptr(pointer)) == pointer, 1); SAME("of a pointer", maple_is_value(maple_ptr(pointer)), 0);
    }
}

int main(int argc, char **argv) {
    uint64_t steps = argc > 1 ? strtoull(argv[1], 0, 10) : 20000;
    state = argc > 2 ? strtoull(argv[2], 0, 10) : 1;
    opens();
    texts();
    entries();
    for (uint32_t kind = 0; kind < 4; kind++) {
        struct maple_tree trees[2] = {{0}, {0}}, *t = trees, *other = trees + 1;
        enough_rows(kind);
        for (int n = 0; n < 20; n++) emptied(kind), in_reserve(kind);
        SAME("open", maple_open(t, kind, 4096), 0);
        rows_in(t, 4096);
        for (uint64_t step = 0; step < steps; step++) {
            act(t, kind);
            if (step % 5 == 0) store_over(t);
            if (step % 4 == 0) ask(t);
            if (step == 1400) rows_in(t, 4096);
            if (step % 4 == 1) ask_many(t);
            if (step % 10 == 9) walk_to(t);
            if (step % 100 == 8) walk_many(t);
            if (step % 1000 == 999) { whole(t); walks(t); }
            if (step % 1500 == 1499) {
                again(t, other, kind);
                maple_close(t);
                struct maple_tree *old = t;
                t = other; other = old;
            }
        }
        whole(t);
        maple_close(t);
        closed(t);
    }
    printf("%" PRIu64 " answers are those of a sorted array\n", answers);
    return 0;
}
