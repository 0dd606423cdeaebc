/* Every call of include/maple_shared.h against a sorted array that this program keeps by itself: shared_calls STEPS SEED.
 * One thread has all users of a tree, and takes one after another at random, so that each answer is known beforehand, what is reported
 * of the history too. It says what differed first and exits with 1, or prints how many answers it compared.
 * bench/shared_threads.c has the same calls in threads. */
#include "c_array.h"
#include "maple_shared.h"

#define USERS 4 /* places; the last is taken and left again and again */

static uint64_t made; /* calls so far */
static struct maple_user users[USERS];

static struct maple_user *any(void) { return users + draw(USERS - 1); }

/* ---- comparing */

static void same_read(uint32_t status, const struct maple_read *got, const struct maple_range *want, int line) {
    struct maple_range range = {got->first, got->last, got->entry};
    same_found(status, &range, want, line);
    answers++;
    if (got->lo != made || got->hi != made) fail("the window of a read", line);
}

/* What a call tells of rows, which is none but where it lacks some. */
static uint64_t rows_told(const struct maple_done *got) {
    return got->need | got->free | got->live | got->held | got->by | got->epoch;
}

/* A call that was made tells its number, a word and a range. */
static void same_done(const struct maple_done *got, uint64_t word, const struct maple_range *was, int line) {
    struct maple_range range = {got->first, got->last, got->entry};
    answers += 2;
    if (got->call != ++made) fail("the number of a call", line);
    if (got->word != word || rows_told(got)) fail("the word of a call", line);
    same_range(&range, was ? was : &none, line);
}

/* Where none was made it tells zeros. */
static void none_done(const struct maple_done *got, int line) {
    answers++;
    if (got->call | got->word | got->first | got->last | got->entry | rows_told(got)) fail("what is told of no call", line);
}

static void none_read(const struct maple_read *got, int line) {
    answers++;
    if (got->lo | got->hi | got->first | got->last | got->entry) fail("what is told of no read", line);
}

/* ---- reads and walks */

static void ask(struct maple_user *u) {
    uint64_t index = draw(SPAN + 9), other = draw(SPAN + 9);
    struct maple_read got;
    uint32_t status = maple_shared_load(u, index, &got);
    same_read(status, &got, load(index), __LINE__);
    status = maple_shared_find(u, index, other, &got);
    same_read(status, &got, find(index, other), __LINE__);
    status = draw(2) ? maple_shared_next(u, index, other, &got) : maple_wait_next(u, index, other, &got);
    same_read(status, &got, next(index, other), __LINE__);
    status = draw(2) ? maple_shared_rfind(u, index, other, &got) : maple_wait_rfind(u, index, other, &got);
    same_read(status, &got, rfind(index, other), __LINE__);
    status = draw(2) ? maple_shared_prev(u, index, other, &got) : maple_wait_prev(u, index, other, &got);
    same_read(status, &got, prev(index, other), __LINE__);
}

/* Two walks of one user, of which the other goes on now and then, with a query of the user and a store of another between. */
static void walks(struct maple_user *u) {
    struct maple_walk walk = {.next = draw(SPAN)}, other = {0}, kept;
    struct maple_read got;
    struct maple_done done;
    size_t at = from(walk.next), behind = 0;
    for (; at < count; at++) {
        uint32_t status = maple_shared_step(u, &walk, &got);
        same_read(status, &got, list + at, __LINE__);
        if (draw(30) == 0) {
            status = maple_shared_step(u, &other, &got);
            same_read(status, &got, behind < count ? list + behind : 0, __LINE__);
            behind++;
        }
        if (draw(30) == 0) {
            SAME("a store between", maple_try_store(any(), list[at].first, list[at].last, list[at].entry, &done), 0);
            same_done(&done, list[at].entry, 0, __LINE__);
        }
        if (draw(30) == 0) SAME("a query between", maple_shared_load(u, list[at].first, &got), 0);
    }
    same_read(maple_shared_step(u, &walk, &got), &got, 0, __LINE__);
    SAME("it has ended", walk.ended, 1);
    kept = walk;
    same_read(maple_shared_step(u, &walk, &got), &got, 0, __LINE__);
    SAME("it stays so", memcmp(&kept, &walk, sizeof walk), 0);
    walk = (struct maple_walk){.next = UINT64_MAX};
    same_read(maple_shared_step(u, &walk, &got), &got, 0, __LINE__);
}

/* A walk up to a bound, with a pause now and then: it has ended as soon as no range is left. */
static void walk_to(struct maple_user *u) {
    struct maple_walk walk = {.next = draw(SPAN + 9)};
    struct maple_read got;
    uint64_t max = draw(2) ? walk.next + draw(200) : draw(SPAN + 9);
    for (size_t at = from(walk.next); walk.next <= max && at < count && list[at].first <= max; at++) {
        uint32_t status = maple_shared_step_to(u, &walk, max, &got);
        same_read(status, &got, list + at, __LINE__);
        SAME("where it goes on", walk.ended, got.last >= max);
        if (walk.ended) break;
        if (draw(9) == 0) SAME("a pause", maple_pause(u), 0);
    }
    same_read(maple_shared_step_to(u, &walk, max, &got), &got, 0, __LINE__);
    SAME("it has ended", walk.ended, 1);
}

/* ---- many at once */

static void same_window(const struct maple_window *got, uint64_t want, int line) {
    answers++;
    if (got->lo != want || got->hi != want) fail("the window of a batch", line);
}

/* Entries alone and in a batch; the places that are not reached keep what they had. */
static void load_many(struct maple_user *u) {
    enum { ASKED = 9 };
    uint64_t indexes[ASKED], entries[ASKED];
    struct maple_window window;
    size_t asked = draw(ASKED + 1), places = draw(ASKED + 1), n = asked < places ? asked : places;
    for (size_t i = 0; i < ASKED; i++) indexes[i] = draw(9) ? draw(SPAN + 9) : UINT64_MAX - i, entries[i] = 1000000 + i;
    SAME("a batch", maple_shared_load_many(u, indexes, asked, entries, places, &window), 0);
    same_window(&window, made, __LINE__);
    for (size_t i = 0; i < ASKED; i++) {
        const struct maple_range *there = load(indexes[i]);
        uint64_t want = there ? there->entry : 0;
        SAME("an entry of a batch", entries[i], i < n ? want : 1000000 + i);
        SAME("an entry alone", maple_shared_entry(u, indexes[i], &window), want);
        same_window(&window, made, __LINE__);
    }
}

/* A walk by batches, with single steps, queries and stores between. */
static void walk_many(struct maple_user *u) {
    enum { PLACES = MAPLE_MOST_STEPS + 8 };
    struct maple_walk walk = {.next = draw(SPAN)}, kept;
    struct maple_range ranges[PLACES];
    struct maple_read got;
    struct maple_window window;
    struct maple_done done;
    size_t at = from(walk.next);
    for (;;) {
        size_t places = draw(PLACES + 1), most = places < MAPLE_MOST_STEPS ? places : MAPLE_MOST_STEPS, left = count - at;
        uint64_t found, want = left < most ? left : most;
        for (size_t i = 0; i < PLACES; i++) ranges[i] = (struct maple_range){1, 1, i};
        kept = walk;
        uint32_t status = maple_shared_step_many(u, &walk, ranges, places, &found, &window);
        SAME("how many of a batch", found, want);
        same_window(&window, made, __LINE__);
        for (size_t i = 0; i < want; i++) same_range(ranges + i, list + at + i, __LINE__);
        for (size_t i = want; i < PLACES; i++) SAME("a place behind", ranges[i].entry, i);
        SAME("it has ended", walk.ended, want < most);
        SAME("a batch of steps", status, want == 0 && walk.ended ? ENOENT : 0);
        if (places == 0) SAME("no place", memcmp(&kept, &walk, sizeof walk), 0);
        at += want;
        if (walk.ended) break;
        if (draw(9) == 0) {
            status = maple_shared_step(u, &walk, &got);
            same_read(status, &got, at < count ? list + at : 0, __LINE__);
            if (walk.ended) break;
            at++;
        }
        if (at < count && draw(9) == 0) {
            SAME("a store between", maple_try_store(any(), list[at].first, list[at].last, list[at].entry, &done), 0);
            same_done(&done, list[at].entry, 0, __LINE__);
        }
        if (draw(9) == 0) SAME("a pause", maple_pause(u), 0);
    }
    kept = walk;
    uint64_t found;
    SAME("ended", maple_shared_step_many(u, &walk, ranges, 3, &found, &window), ENOENT);
    SAME("it stays so", memcmp(&kept, &walk, sizeof walk), 0);
    same_window(&window, made, __LINE__);
}

/* ---- calls, of which half are those that would wait */

#define EITHER(name, ...) (draw(2) ? maple_try_##name(__VA_ARGS__) : maple_wait_##name(__VA_ARGS__))

static void store(struct maple_user *u, uint64_t first, uint64_t last, uint64_t entry) {
    int bad = first > last || is_reserved(entry);
    struct maple_done done;
    uint32_t status = draw(2) ? EITHER(store, u, first, last, entry, &done) : EITHER(store_pre, u, first, last, entry, &done);
    SAME("a store", status, bad ? EINVAL : 0);
    same_done(&done, bad ? 0 : over(first, last, entry), 0, __LINE__);
}

/* A store that tells all that it met, as far as there is room, whatever it came to. */
static void store_over(struct maple_user *u) {
    uint64_t first = draw(SPAN), last = first + draw(draw(9) ? 60 : SPAN), entry = draw(5) ? draw(9000) : 0, told = 77;
    struct maple_range met[9], unmet = {7, 7, 7};
    struct maple_done done;
    size_t room = draw(10), at, many = 0, i;
    if (draw(30) == 0) { uint64_t x = first; first = last + 1; last = x; }
    int bad = first > last || is_reserved(entry);
    for (at = from(first); first <= last && at + many < count && list[at + many].first <= last;) many++;
    for (i = 0; i < 9; i++) met[i] = unmet;
    SAME("a store over all", EITHER(store_over, u, first, last, entry, met, room, &told, &done), bad ? EINVAL : 0);
    SAME("so many", told, many);
    for (i = 0; i < 9; i++) same_range(met + i, i < room && i < many ? list + at + i : &unmet, __LINE__);
    same_done(&done, bad ? 0 : over(first, last, entry), 0, __LINE__);
}

static void insert(struct maple_user *u, uint64_t first, uint64_t last, uint64_t entry) {
    int bad = first > last || is_reserved(entry) || entry == 0;
    struct maple_done done;
    uint32_t status = EITHER(insert, u, first, last, entry, &done);
    SAME("an insert", status, bad ? EINVAL : held(first, last) ? EEXIST : 0);
    same_done(&done, 0, 0, __LINE__);
    if (!status) over(first, last, entry);
}

static void erase(struct maple_user *u, uint64_t index) {
    const struct maple_range *was = load(index);
    struct maple_done done;
    SAME("an erase", EITHER(erase, u, index, &done), was ? 0 : ENOENT);
    same_done(&done, 0, was, __LINE__);
    if (was) drop(was - list);
}

static void find_room(struct maple_user *u, int rooms, uint64_t entry) {
    uint64_t size = 1 + draw(9), min = draw(SPAN), max = min + draw(200), start = 0;
    int high = draw(2), stores = draw(2), bad = !rooms || max - min < size - 1 || (stores && (entry == 0 || is_reserved(entry)));
    uint32_t want = bad ? EINVAL : room(size, min, max, high, &start) ? 0 : EBUSY, status;
    struct maple_done done;
    if (stores)
        status = high ? EITHER(ralloc, u, size, min, max, entry, &done) : EITHER(alloc, u, size, min, max, entry, &done);
    else
        status = high ? EITHER(rgap, u, size, min, max, &done) : EITHER(gap, u, size, min, max, &done);
    SAME("room", status, want);
    same_done(&done, status ? 0 : start, 0, __LINE__);
    if (!status && stores) over(start, start + size - 1, entry);
}

/* Several calls under one lock: each comes to what it would alone, in the order in which they stand. */
static void same_call(const struct maple_call *c, uint32_t kind) {
    uint64_t start = 0;
    int rooms = c->verb >= MAPLE_CALL_ALLOC && c->verb <= MAPLE_CALL_RGAP, stores = c->verb != MAPLE_CALL_GAP && c->verb != MAPLE_CALL_RGAP;
    int high = c->verb == MAPLE_CALL_RALLOC || c->verb == MAPLE_CALL_RGAP, none_at_all = c->entry == 0 && c->verb >= MAPLE_CALL_INSERT;
    int bad = c->first > c->last || (rooms && (!(kind % 2) || c->last - c->first < c->size - 1)) || (stores && (is_reserved(c->entry) || none_at_all));
    const struct maple_range *was = load(c->first);
    if (c->verb == MAPLE_CALL_CLEAR) {
        SAME("a clearing", c->status, 0); same_done(&c->done, 0, 0, __LINE__);
        count = 0;
    } else if (c->verb == MAPLE_CALL_ERASE) {
        SAME("an erase", c->status, was ? 0 : ENOENT); same_done(&c->done, 0, was, __LINE__);
        if (was) drop(was - list);
    } else if (rooms) {
        SAME("room", c->status, bad ? EINVAL : room(c->size, c->first, c->last, high, &start) ? 0 : EBUSY);
        same_done(&c->done, c->status ? 0 : start, 0, __LINE__);
        if (!c->status && stores) over(start, start + c->size - 1, c->entry);
    } else if (c->verb == MAPLE_CALL_INSERT) {
        SAME("an insert", c->status, bad ? EINVAL : held(c->first, c->last) ? EEXIST : 0); same_done(&c->done, 0, 0, __LINE__);
        if (!c->status) over(c->first, c->last, c->entry);
    } else {
        SAME("a store", c->status, bad ? EINVAL : 0);
        same_done(&c->done, bad ? 0 : over(c->first, c->last, c->entry), 0, __LINE__);
    }
}

static void batch(struct maple_user *u, uint32_t kind) {
    struct maple_call calls[6] = {0}, asked[6];
    size_t many = draw(7), i;
    for (i = 0; i < many; i++) {
        uint64_t first = draw(SPAN), last = first + draw(draw(2) ? 12 : 200), x = first;
        if (draw(60) == 0) first = last + 1, last = x;
        calls[i] = (struct maple_call){.verb = (uint32_t)(draw(900) ? 1 + draw(8) : MAPLE_CALL_CLEAR), .status = 77, .first = first, .last = last, .entry = draw(5) ? draw(9000) : 0, .size = 1 + draw(9)};
    }
    memcpy(asked, calls, sizeof calls);
    if (many) {
        uint32_t verb = calls[many - 1].verb;
        calls[many - 1].verb = asked[many - 1].verb = draw(2) ? 0 : MAPLE_CALL_CLEAR + 1;
        SAME("no such call", maple_try_batch(u, calls, many), EINVAL); SAME("as it was", memcmp(calls, asked, many * sizeof *calls), 0);
        calls[many - 1].verb = asked[many - 1].verb = verb;
    }
    SAME("a batch", EITHER(batch, u, calls, many), 0);
    for (i = 0; i < many; i++) {
        const struct maple_call *c = calls + i, *was = asked + i;
        SAME("as it was asked", c->verb == was->verb && c->first == was->first && c->last == was->last && c->entry == was->entry && c->size == was->size, 1);
        same_call(c, kind);
    }
}

/* A store that keeps the reserve is refused where it adds ranges and the nodes are too few for them, and only there. Then it is no call. */
static void store_in_reserve(struct maple_user *u, uint64_t rows) {
    static struct maple_range was[MOST];
    uint64_t first = draw(SPAN), last = first + draw(draw(5) ? 9 : 300), entry = draw(4) ? 4 * draw(2000) + 1 : 0, old;
    struct maple_done done;
    size_t before = count;
    memcpy(was, list, before * sizeof *was);
    old = over(first, last, entry);
    if (count > before && maple_rows_for(count) > rows) {
        SAME("too many", EITHER(store_kept, u, first, last, entry, &done), ENOMEM); none_done(&done, __LINE__);
        memcpy(list, was, before * sizeof *was); count = before;
    } else if (draw(9) || count > before) {
        SAME("a store", EITHER(store_kept, u, first, last, entry, &done), 0); same_done(&done, old, 0, __LINE__);
    } else {
        SAME("a store", EITHER(store, u, first, last, entry, &done), 0); same_done(&done, old, 0, __LINE__);
    }
}

/* One insert, or one allocation, that keeps the reserve: it is taken to add a range. */
static void add_in_reserve(struct maple_user *u, uint32_t kind, uint64_t rows) {
    uint64_t index = draw(SPAN);
    int more = maple_rows_for(count + 1) <= rows, placed = kind % 2 && draw(2), there = !placed && load(index);
    struct maple_done done = {0};
    uint32_t status = !placed ? EITHER(insert_kept, u, index, index, 8, &done)
                      : draw(2) ? EITHER(alloc_kept, u, 1, 0, SPAN, 8, &done) : EITHER(ralloc_kept, u, 1, 0, SPAN, 8, &done);
    SAME("one more", status, more ? there ? EEXIST : 0 : ENOMEM);
    if (!more) { none_done(&done, __LINE__); return; }
    if (placed) { index = done.word; SAME("it was free", load(index) == 0, 1); }
    same_done(&done, placed ? index : 0, 0, __LINE__);
    if (!there) over(index, index, 8);
}

/* A tree whose users keep its reserve is filled until it refuses a range more, and no sooner. Then it is emptied in any order, and
 * refuses nothing that adds no range. */
static void in_reserve(uint32_t kind) {
    struct maple_user u[2] = {{0}, {0}};
    uint64_t rows = 6 + draw(60), before = made;
    count = made = 0;
    SAME("open", maple_shared_open(u, kind, rows, 2, 9999), 0); SAME("another user", maple_share(u, u + 1), 0);
    for (int step = 0; step < 1500; step++) {
        struct maple_user *one = u + draw(2);
        if (step && draw(4) == 0) {
            if (count) erase(one, list[draw(count)].first);
        } else if (draw(2)) {
            add_in_reserve(one, kind, rows);
        } else {
            store_in_reserve(one, rows);
        }
        SAME("in reserve", count == 0 || maple_rows_for(count) <= rows, 1);
    }
    while (count) erase(u + draw(2), list[draw(count)].first);
    maple_shared_close(u); maple_shared_close(u + 1);
    made = before;
}

static void act(struct maple_user *u, uint32_t kind) {
    uint64_t first = draw(SPAN), last = first + draw(12), entry = draw(5) ? draw(9000) : 0;
    if (draw(60) == 0) { uint64_t x = first; first = last + 1; last = x; }
    switch (draw(8)) {
    case 0: case 1: case 2: store(u, first, last, entry); break;
    case 3: insert(u, first, last, entry); break;
    case 4: case 5: erase(u, first); break;
    default: find_room(u, kind % 2, entry);
    }
}

/* ---- users */

/* What each has seen can be learnt, and no more; and they meet. */
static void meet(void) {
    uint64_t calls = 7, places = 7;
    for (int i = 0; i < USERS - 1; i++) {
        if (draw(2)) SAME("all is learnt", draw(2) ? maple_learn(users + i, made) : maple_wait_learn(users + i, made), 0);
        SAME("no more", maple_learn(users + i, made + 1), EINPROGRESS);
        SAME("in step", draw(2) ? maple_sync(users + i, &calls) : maple_wait_sync(users + i, &calls), 0);
        SAME("so many calls", calls, made);
    }
    SAME("settled", draw(2) ? maple_settle(any(), &calls, &places) : maple_wait_settle(any(), &calls, &places), 0);
    SAME("so many calls", calls, made);
    SAME("one free place", places, 1);
}

/* What is told of the whole tree, as one of one thread that is built anew tells of its own. */
static void whole(void) {
    static uint8_t bytes[1 << 22];
    struct maple_tree t = {0};
    struct maple_user *u = any();
    struct maple_form form, other = {7, 7, 7};
    struct maple_stats stats;
    struct maple_walk walk = {0};
    struct maple_read got;
    uint64_t calls = 7;
    size_t used = 7, i;
    SAME("checked", draw(2) ? maple_shared_check(u, &form) : maple_wait_check(u, &form), 0);
    SAME("so many ranges", form.ranges, count);
    SAME("stats", draw(2) ? maple_shared_stats(u, &stats) : maple_wait_stats(u, &stats), 0);
    SAME("all rows", stats.free + stats.live + stats.held, stats.rows); SAME("so many", stats.rows, 4096);
    SAME("in use", stats.live, form.rows); SAME("levels", stats.height, form.height); SAME("calls", stats.calls, made);
    SAME("all calls", draw(2) ? maple_oldest(u, &calls) : maple_wait_oldest(u, &calls), 0); SAME("so many", calls, made);
    SAME("stats", maple_shared_stats(u, &stats), 0); SAME("none held", stats.held, 0);
    bytes[0] = 77;
    SAME("no room", maple_shared_image(u, bytes, 3, &used), ERANGE); SAME("as before", bytes[0], 77);
    SAME("so many bytes", used >= form.rows * 256, 1);
    SAME("an image", draw(2) ? maple_shared_image(u, bytes, used, &used) : maple_wait_image(u, bytes, used, &used), 0);
    SAME("opened", maple_open_image(&t, bytes, used, 4096), 0);
    SAME("its form", maple_check(&t, &other), 0); SAME("its rows", other.rows, form.rows); SAME("its ranges", other.ranges, form.ranges);
    for (i = 0; i < count; i++) {
        struct maple_range range;
        SAME("a step", maple_step(&t, &walk, &range), 0);
        same_range(&range, list + i, __LINE__);
    }
    maple_close(&t);
    walk = (struct maple_walk){0};
    if (maple_shared_step(users, &walk, &got) == 0) {
        uint64_t began = made;
        struct maple_done done;
        SAME("a call since", maple_try_store(users + 1, list[0].first, list[0].last, list[0].entry, &done), 0);
        same_done(&done, list[0].entry, 0, __LINE__);
        SAME("since that step", maple_oldest(users + 1, &calls), 0); SAME("so many", calls, began);
        SAME("it gives up its walk", maple_pause(users), 0);
        SAME("all again", maple_oldest(users + 1, &calls), 0); SAME("so many", calls, made);
    }
}

/* A copy of the tree has its map, and goes on by itself. */
static void copies(void) {
    struct maple_user *u = any(), copy = {0}, other = {0};
    struct maple_walk walk = {0};
    struct maple_form form;
    struct maple_stats stats;
    struct maple_read got;
    struct maple_done done;
    SAME("its form", maple_shared_check(u, &form), 0);
    SAME("no such rows", maple_shared_copy(u, &copy, 3, 2, 9), EDOM); SAME("nor so many", maple_shared_copy(u, &copy, MAPLE_MOST_ROWS + 1, 2, 9), EDOM);
    SAME("no users", maple_shared_copy(u, &copy, 4096, 0, 9), EUSERS); SAME("no calls", maple_shared_copy(u, &copy, 4096, 2, 0), EOVERFLOW);
    if (form.rows > 4) SAME("too few rows", maple_shared_copy(u, &copy, form.rows - 1, 2, 9), EDOM);
    SAME("so none", maple_pause(&copy), EBADF);
    SAME("of none", maple_shared_copy(&copy, &other, 4096, 2, 9), EBADF); SAME("none", maple_pause(&other), EBADF);
    SAME("copied", draw(2) ? maple_shared_copy(u, &copy, form.rows > 4 ? form.rows + draw(2) : 4, 2, 9) : maple_wait_copy(u, &copy, 5000, 2, 9), 0);
    SAME("copied twice", maple_shared_copy(u, &copy, 4096, 2, 9), EALREADY);
    SAME("another user", maple_share(&copy, &other), 0);
    for (size_t i = 0; i < count; i++) {
        struct maple_range range;
        SAME("a step", maple_shared_step(&other, &walk, &got), 0);
        range = (struct maple_range){got.first, got.last, got.entry};
        same_range(&range, list + i, __LINE__);
        SAME("no call yet", got.lo | got.hi, 0);
    }
    SAME("no more", maple_shared_step(&other, &walk, &got), ENOENT);
    SAME("its stats", maple_shared_stats(&other, &stats), 0); SAME("in use", stats.live, form.rows); SAME("no calls", stats.calls, 0);
    SAME("its first call", maple_try_clear(&copy, &done), 0); SAME("is the first", done.call, 1);
    SAME("its form", maple_shared_check(u, &form), 0); SAME("the other has its ranges", form.ranges, count);
    maple_shared_close(&copy);
    maple_shared_close(&other);
}

/* One more user comes to the last place, and goes. */
static void come_and_go(void) {
    struct maple_user *last = users + USERS - 1, more = {0};
    struct maple_walk walk = {0};
    struct maple_read got;
    uint64_t calls = 7, places = 7;
    SAME("comes", draw(2) ? maple_share(any(), last) : maple_wait_share(any(), last), 0);
    SAME("is there", maple_share(any(), last), EALREADY);
    SAME("no more places", maple_share(any(), &more), EUSERS);
    SAME("is none", maple_shared_load(&more, 1, &got), EBADF); none_read(&got, __LINE__);
    SAME("settled", maple_settle(last, &calls, &places), 0);
    SAME("so many calls", calls, made);
    SAME("no free place", places, 0);
    same_read(maple_shared_step(last, &walk, &got), &got, count ? list : 0, __LINE__);
    SAME("goes", draw(2) ? maple_leave(last) : maple_wait_leave(last), 0);
    SAME("has gone", maple_leave(last), EBADF);
}

/* A shared tree with the map of one of one thread, once it may be opened. */
static void of_tree(uint32_t kind) {
    static uint8_t bytes[1 << 22];
    struct maple_tree t = {0};
    struct maple_user u = {0};
    struct maple_walk walk = {0};
    struct maple_form form;
    struct maple_read got;
    struct maple_done done;
    size_t used = 7;
    uint64_t at = 7;
    SAME("a closed one", maple_shared_of_tree(&t, &u, 4096, 2, 9), EBADF);
    SAME("built", maple_build(&t, kind, 4096, list, count, &at), 0);
    SAME("checked", maple_check(&t, &form), 0);
    SAME("no such rows", maple_shared_of_tree(&t, &u, 3, 2, 9), EDOM); SAME("nor so many", maple_shared_of_tree(&t, &u, MAPLE_MOST_ROWS + 1, 2, 9), EDOM);
    SAME("no users", maple_shared_of_tree(&t, &u, 4096, 0, 9), EUSERS); SAME("no calls", maple_shared_of_tree(&t, &u, 4096, 2, 0), EOVERFLOW);
    if (form.rows > 4) SAME("too few rows", maple_shared_of_tree(&t, &u, form.rows - 1, 2, 9), EDOM);
    SAME("so none", maple_pause(&u), EBADF);
    SAME("shared", maple_shared_of_tree(&t, &u, form.rows > 4 ? form.rows + draw(2) : 4, 2, 9), 0);
    SAME("shared twice", maple_shared_of_tree(&t, &u, 4096, 2, 9), EALREADY);
    if (draw(2)) {
        SAME("its image", maple_image(&t, bytes, sizeof bytes, &used), 0);
        SAME("open", maple_shared_open_image(&u, bytes, used, 4096, 2, 9), EALREADY);
        maple_shared_close(&u);
        SAME("a cut one", maple_shared_open_image(&u, bytes, used - 1, 4096, 2, 9), EBADMSG);
        if (form.rows > 4) SAME("too few rows", maple_shared_open_image(&u, bytes, used, form.rows - 1, 2, 9), EDOM);
        SAME("no users", maple_shared_open_image(&u, bytes, used, 4096, 63, 9), EUSERS);
        SAME("of an image", maple_shared_open_image(&u, bytes, used, 4096, 2, 9), 0);
    } else {
        SAME("open", maple_shared_build(&u, kind, list, count, 4096, 2, 9, &at), EALREADY); SAME("no place", at, 0);
        maple_shared_close(&u);
        SAME("no kind", maple_shared_build(&u, 4, list, count, 4096, 2, 9, &at), EINVAL); SAME("no place", at, 0);
        SAME("too few rows", maple_shared_build(&u, kind, list, count, 3, 2, 9, &at), EDOM); SAME("no place", at, 0);
        SAME("no calls", maple_shared_build(&u, kind, list, count, 4096, 2, 0, &at), EOVERFLOW); SAME("no place", at, 0);
        if (count > 1) {
            struct maple_range twice[2] = {list[1], list[0]};
            SAME("no order", maple_shared_build(&u, kind, twice, 2, 4096, 2, 9, &at), EINVAL); SAME("where", at, 1);
        }
        SAME("built", maple_shared_build(&u, kind, list, count, 4096, 2, 9, &at), 0); SAME("no place", at, 0);
    }
    maple_close(&t);
    for (at = 0; at < count; at++) {
        struct maple_range range;
        SAME("a step", maple_shared_step(&u, &walk, &got), 0);
        range = (struct maple_range){got.first, got.last, got.entry};
        same_range(&range, list + at, __LINE__);
        SAME("no call yet", got.lo | got.hi, 0);
    }
    SAME("no more", maple_shared_step(&u, &walk, &got), ENOENT);
    SAME("its first call", maple_try_clear(&u, &done), 0); SAME("is the first", done.call, 1);
    maple_shared_close(&u);
}

static void closed(struct maple_user *u) {
    struct maple_read r = {7, 7, 7, 7, 7};
    struct maple_done d = {7, 7, 7, 7, 7, 7, 7, 7, 7, 7, 7};
    struct maple_user other = {0};
    struct maple_walk walk = {5, 0};
    struct maple_call call = {.verb = MAPLE_CALL_CLEAR, .status = 77};
    struct maple_form form = {7, 7, 7};
    struct maple_stats stats = {7, 7, 7, 7, 7, 7};
    uint8_t byte[1] = {7};
    size_t used = 7;
    uint64_t calls = 7, places = 7, entry = 7, found = 7;
    struct maple_range range = {7, 7, 7};
    struct maple_window window = {7, 7};
#define CLOSED(made_by) SAME("closed", made_by, EBADF)
#define NO_READ(made_by) CLOSED(made_by); none_read(&r, __LINE__); r.hi = 7
#define NO_CALL(made_by) CLOSED(made_by); none_done(&d, __LINE__); d.call = 7
    NO_READ(maple_shared_load(u, 1, &r)); NO_READ(maple_shared_find(u, 1, 9, &r)); NO_READ(maple_shared_next(u, 1, 9, &r));
    NO_READ(maple_shared_prev(u, 1, 0, &r)); NO_READ(maple_shared_rfind(u, 1, 0, &r)); NO_READ(maple_shared_step(u, &walk, &r));
    NO_READ(maple_shared_step_to(u, &walk, 9, &r)); CLOSED(maple_pause(u));
    CLOSED(maple_place(u, &places)); SAME("no place", places, 0); places = 7;
    SAME("the walk as it was", walk.next, 5); SAME("not ended", walk.ended, 0);
    SAME("no entry", maple_shared_entry(u, 1, &window), 0); same_window(&window, 0, __LINE__); window.hi = 7;
    CLOSED(maple_shared_load_many(u, &calls, 1, &entry, 1, &window)); SAME("as before", entry, 7); same_window(&window, 0, __LINE__); window.hi = 7;
    CLOSED(maple_shared_step_many(u, &walk, &range, 1, &found, &window)); SAME("as before", range.entry, 7); SAME("none", found, 0);
    same_window(&window, 0, __LINE__); SAME("the walk as it was", walk.next, 5); SAME("not ended", walk.ended, 0);
    NO_CALL(maple_try_store(u, 1, 2, 3, &d)); NO_CALL(maple_try_store_pre(u, 1, 2, 3, &d)); NO_CALL(maple_try_insert(u, 1, 2, 3, &d));
    NO_CALL(maple_try_erase(u, 1, &d)); NO_CALL(maple_try_alloc(u, 1, 0, 9, 4, &d)); NO_CALL(maple_try_ralloc(u, 1, 0, 9, 4, &d));
    NO_CALL(maple_try_gap(u, 1, 0, 9, &d)); NO_CALL(maple_try_rgap(u, 1, 0, 9, &d)); NO_CALL(maple_try_clear(u, &d));
    NO_CALL(maple_wait_store(u, 1, 2, 3, &d)); NO_CALL(maple_wait_clear(u, &d));
    NO_CALL(maple_try_store_kept(u, 1, 2, 3, &d)); NO_CALL(maple_try_insert_kept(u, 1, 2, 3, &d)); NO_CALL(maple_wait_store_kept(u, 1, 2, 3, &d));
    NO_CALL(maple_try_alloc_kept(u, 1, 0, 9, 4, &d)); NO_CALL(maple_try_ralloc_kept(u, 1, 0, 9, 4, &d));
    CLOSED(maple_try_batch(u, &call, 1)); SAME("as it was", call.status, 77); none_done(&call.done, __LINE__);
    NO_CALL(maple_try_store_over(u, 1, 2, 3, &range, 1, &calls, &d)); SAME("none met", calls, 0); SAME("as before", range.entry, 7); calls = 7;
    CLOSED(maple_share(u, &other)); CLOSED(maple_leave(&other)); CLOSED(maple_leave(u)); CLOSED(maple_learn(u, 0));
    CLOSED(maple_sync(u, &calls)); SAME("no calls", calls, 0); calls = 7;
    CLOSED(maple_settle(u, &calls, &places)); SAME("no calls", calls, 0); SAME("no places", places, 0);
    calls = 7;
    CLOSED(maple_oldest(u, &calls)); SAME("no calls", calls, 0);
    CLOSED(maple_shared_check(u, &form)); SAME("no form", form.height | form.rows | form.ranges, 0);
    CLOSED(maple_shared_stats(u, &stats)); SAME("no stats", stats.rows | stats.free | stats.live | stats.held | stats.height | stats.calls, 0);
    CLOSED(maple_shared_image(u, byte, 1, &used)); SAME("no bytes", used, 0); SAME("as before", byte[0], 7);
    maple_shared_close(u);
}

static void opens(void) {
    struct maple_user u = {0}, other = {0};
    struct maple_read read;
    struct maple_done done;
    uint64_t calls;
    closed(&u);
    SAME("no kind", maple_shared_open(&u, 4, 100, 1, 9), EINVAL); closed(&u);
    SAME("too few rows", maple_shared_open(&u, MAPLE_RANGE, 3, 1, 9), EDOM);
    SAME("too many", maple_shared_open(&u, MAPLE_RANGE, MAPLE_MOST_ROWS + 1, 1, 9), EDOM);
    SAME("no users", maple_shared_open(&u, MAPLE_RANGE, 100, 0, 9), EUSERS);
    SAME("too many", maple_shared_open(&u, MAPLE_RANGE, 100, MAPLE_MOST_USERS + 1, 9), EUSERS);
    SAME("no calls", maple_shared_open(&u, MAPLE_RANGE, 100, 1, 0), EOVERFLOW);
    SAME("too many", maple_shared_open(&u, MAPLE_RANGE, 100, 1, MAPLE_MOST_CALLS + 1), EOVERFLOW); closed(&u);
    SAME("open", maple_shared_open(&u, MAPLE_RANGE32, 100, MAPLE_MOST_USERS, 4), 0);
    SAME("open twice", maple_shared_open(&u, MAPLE_RANGE, 100, 1, 9), EALREADY);
    SAME("another", maple_share(&u, &other), 0);
    /* indexes of 32 bits, and four calls in all */
    SAME("above 32 bits", maple_try_store(&u, 0, (uint64_t)UINT32_MAX + 1, 4, &done), EINVAL); SAME("a call", done.call, 1);
    SAME("to the top", maple_try_store(&u, 7, UINT32_MAX, 4, &done), 0); SAME("a call", done.call, 2);
    SAME("learnt", maple_learn(&other, done.call), 0);
    SAME("at the top", maple_shared_load(&other, UINT32_MAX, &read), 0); SAME("its last", read.last, UINT32_MAX);
    SAME("none", maple_try_erase(&other, 6, &done), ENOENT); SAME("a call", done.call, 3);
    struct maple_call two[2] = {{.verb = MAPLE_CALL_CLEAR, .status = 77}, {.verb = MAPLE_CALL_CLEAR, .status = 77}};
    SAME("one too many", maple_wait_batch(&other, two, 2), EOVERFLOW); SAME("neither is made", two[0].status + two[1].status, 154); none_done(&two[0].done, __LINE__);
    SAME("one is left", maple_try_batch(&u, two + 1, 1), 0); SAME("done", two[1].status, 0); SAME("a call", two[1].done.call, 4);
    SAME("worn", maple_wait_store(&other, 1, 1, 4, &done), EOVERFLOW); none_done(&done, __LINE__);
    SAME("none left", maple_shared_next(&other, 0, UINT32_MAX, &read), ENOENT); SAME("seen", read.lo, 4);
    SAME("in step", maple_sync(&u, &calls), 0); SAME("so many", calls, 4);
    /* the first goes first, and the other has the tree still */
    maple_shared_close(&u); closed(&u);
    SAME("still there", maple_shared_load(&other, 7, &read), ENOENT);
    SAME("the last goes", maple_leave(&other), 0); closed(&other);
}

/* A walk that is not gone on with holds the rows of its leaf, and so at last all that die: till its user does something else. */
static void holds(void) {
    struct maple_user u = {0}, other = {0};
    uint64_t place = 7;
    struct maple_walk walk = {0};
    struct maple_read read;
    struct maple_done done;
    uint32_t status = 0;
    uint64_t i;
    SAME("a small tree", maple_shared_open(&u, MAPLE_RANGE, 12, 2, 1000), 0);
    SAME("another user", maple_share(&u, &other), 0);
    for (i = 0; i < 8; i++) SAME("a store", maple_try_store(&u, 10 * i, 10 * i + 4, 8, &done), 0);
    SAME("a step", maple_shared_step(&other, &walk, &read), 0);
    for (i = 0; i < 100 && !status; i++) status = maple_try_store_pre(&u, 10 * (i % 8) + 1, 10 * (i % 8) + 2, 4 * (i % 2) + 8, &done);
    SAME("too few rows", status, ENOMEM);
    SAME("a call all the same", done.call, 8 + i);
    SAME("all rows", done.free + done.live + done.held, 12); SAME("too few", done.free < done.need, 1); SAME("some are held", done.held > 0, 1);
    SAME("who has a place", maple_place(&other, &place), 0); SAME("by that one", done.by, place); SAME("since that step", done.epoch, 8);
    SAME("it gives up its walk", maple_pause(&other), 0);
    SAME("rows again", maple_try_store_pre(&u, 1, 2, 4, &done), 0);
    SAME("a pause on no walk", maple_pause(&other), 0);
    maple_shared_close(&other);
    maple_shared_close(&u);
}

/* In a tree that has its reserve a call lacks nodes only while a reader holds some. Then it is a call, and says so. */
static void held_in_reserve(void) {
    struct maple_user u = {0}, other = {0};
    struct maple_walk walk = {0};
    struct maple_read read;
    struct maple_done done;
    uint32_t status = 0;
    uint64_t ranges = 0, at = 0, i;
    SAME("a small tree", maple_shared_open(&u, MAPLE_RANGE, 20, 2, 1000), 0); SAME("another user", maple_share(&u, &other), 0);
    while (!(status = maple_try_store_kept(&u, 10 * ranges, 10 * ranges + 4, 8, &done))) ranges++;
    SAME("as many as it has nodes for", maple_rows_for(ranges) <= 20 && maple_rows_for(ranges + 1) > 20, 1);
    SAME("in reserve", status, ENOMEM); none_done(&done, __LINE__);
    SAME("a step", maple_shared_step(&other, &walk, &read), 0);
    for (i = status = 0; i < 200 && !status; i++) {
        at = i / 2 % ranges;
        status = i % 2 ? maple_try_store_kept(&u, 10 * at, 10 * at + 4, 8, &done) : maple_try_erase(&u, 10 * at, &done);
    }
    SAME("some are held", status, ENOMEM); SAME("by a reader", done.held > 0 && done.by > 0, 1); SAME("a call all the same", done.call, ranges + i);
    SAME("it gives up its walk", maple_pause(&other), 0);
    for (uint64_t n = 0; n < ranges; n++) {
        uint64_t place = n % 2 ? ranges - 1 - n / 2 : n / 2;
        SAME("emptied", maple_try_erase(&u, 10 * place, &done), place == at && i % 2 == 0 ? ENOENT : 0);
    }
    maple_shared_close(&other); maple_shared_close(&u);
}

int main(int argc, char **argv) {
    uint64_t steps = argc > 1 ? strtoull(argv[1], 0, 10) : 20000;
    state = argc > 2 ? strtoull(argv[2], 0, 10) : 1;
    opens();
    holds();
    held_in_reserve();
    for (uint32_t kind = 0; kind < 4; kind++) {
        struct maple_done done;
        for (int n = 0; n < 10; n++) in_reserve(kind);
        count = made = 0;
        SAME("open", maple_shared_open(users, kind, 4096, USERS, MAPLE_MOST_CALLS), 0);
        for (int i = 1; i < USERS - 1; i++) SAME("another user", maple_share(users + draw(i), users + i), 0);
        for (uint64_t step = 0; step < steps; step++) {
            act(any(), kind);
            if (step % 5 == 0) batch(any(), kind);
            if (step % 5 == 1) store_over(any());
            if (step % 4 == 0) ask(any());
            if (step % 100 == 99) meet();
            if (step % 300 == 299) come_and_go();
            if (step % 10 == 9) walk_to(any());
            if (step % 10 == 4) load_many(any());
            if (step % 50 == 24) walk_many(any());
            if (step % 1000 == 999) walks(any());
            if (step % 3000 == 2999) of_tree(kind);
            if (step % 1000 == 499) whole();
            if (step % 2000 == 999) copies();
        }
        SAME("clear", EITHER(clear, any(), &done), 0); same_done(&done, 0, 0, __LINE__);
        count = 0;
        walks(any());
        for (int i = 0; i < USERS - 1; i++) { maple_shared_close(users + i); closed(users + i); }
    }
    printf("%" PRIu64 " answers are those of a sorted array\n", answers);
    return 0;
}
