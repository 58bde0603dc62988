/* Two harts that share one mapping of two pages, with a queue of two fence requests each: every interleaving
   of accesses, commands, takes and evictions. README.md says what is claimed and what is left out.

   One leaf is one byte: 0 for none, else its frame and whether it may be written.
   A wrong body is chosen by a name on the command line: FREES_AT_UNMAP, KEEPS_ENTRY, TAKES_NEWEST,
   ASKS_OTHERS_ALONE, MAPS_HELD_FRAMES. */

#ifndef FRAMES
#define FRAMES 2
#endif
#define HARTS 2
#define PAGES 2
#define QUEUE 2

#define NONE 0
#define LEAF(frame, write) (1 + 2 * (frame) + (write))
#define FRAME(leaf) (((leaf) - 1) / 2)
#define MAY_WRITE(leaf) (((leaf) - 1) % 2)

/* What an access is answered: unmapped (0), denied (255), or a frame (its number and 1). */
#define UNMAPPED 0
#define DENIED 255
#define REPLY(leaf, store) ((leaf) == NONE -> UNMAPPED : ((store) && !MAY_WRITE(leaf) -> DENIED : 1 + FRAME(leaf)))

typedef Leaves { byte at[PAGES] };

Leaves before[QUEUE + 1];  /* before[0] is the mapping; before[i] is the mapping before the newest i requests */
Leaves array[HARTS];       /* each hart's TLB array; a page has one entry at most */
byte held[FRAMES];         /* for each frame that an unmap holds back: the harts that have still to take it */

/* A request: the page and the leaf before its command, and whether the command was an unmap. */
chan queue[HARTS] = [QUEUE] of { byte, byte, bool };

/* Any page, any truth value. */
inline some_page(p) { if :: p = 0 :: p = 1 fi }
inline some_truth(t) { if :: t = false :: t = true fi }

/* A frame is in the mapping. */
#define IS_MAPPED(f) ((before[0].at[0] != NONE && FRAME(before[0].at[0]) == (f)) || (before[0].at[1] != NONE && FRAME(before[0].at[1]) == (f)))

/* A frame is in a hart's array. */
#define REACHES(h, f) ((array[h].at[0] != NONE && FRAME(array[h].at[0]) == (f)) || (array[h].at[1] != NONE && FRAME(array[h].at[1]) == (f)))

/* Some queue is full: a command is refused. */
#define IS_FULL (len(queue[0]) == QUEUE || len(queue[1]) == QUEUE)

/* The lowest frame that is neither in the mapping nor held back, or FRAMES where there is none. */
inline lowest(f) {
    f = 0;
    do
    :: f == FRAMES -> break
#ifdef MAPS_HELD_FRAMES
    :: f < FRAMES && !IS_MAPPED(f) -> break
    :: f < FRAMES && IS_MAPPED(f) -> f++
#else
    :: f < FRAMES && !IS_MAPPED(f) && held[f] == 0 -> break
    :: f < FRAMES && (IS_MAPPED(f) || held[f] != 0) -> f++
#endif
    od
}

/* The mapping as it stands becomes the one before the next request. */
inline remember() {
    for (i : 1 .. QUEUE) {
        before[QUEUE + 1 - i].at[0] = before[QUEUE - i].at[0];
        before[QUEUE + 1 - i].at[1] = before[QUEUE - i].at[1]
    }
}

/* Mappings before requests that every hart has taken are no concern of any hart. */
inline forget() {
    for (i : 1 .. QUEUE) {
        if
        :: i > len(queue[0]) && i > len(queue[1]) -> before[i].at[0] = NONE; before[i].at[1] = NONE
        :: else
        fi
    }
}

/* A command puts one request at the end of every queue. */
inline ask(h, from, old, unmaps) {
    for (i : 0 .. HARTS - 1) {
#ifdef ASKS_OTHERS_ALONE
        if
        :: i != h -> queue[i]!from, old, unmaps
        :: else
        fi
#else
        queue[i]!from, old, unmaps
#endif
    }
}

/* The claim on an answer: it is that of the mapping before some number of the newest requests in the hart's own
   queue, so of no mapping older than the last request that it took. */
inline check_age(h, page, store, reply) {
    fits = false;
    for (i : 0 .. QUEUE) {
        if
        :: i <= len(queue[h]) && REPLY(before[i].at[page], store) == reply -> fits = true
        :: else
        fi
    }
    assert(fits)
}

/* The claim on a frame answered: it is in the mapping or held back. */
inline check_frame(reply) {
    assert(reply == UNMAPPED || reply == DENIED || IS_MAPPED(reply - 1) || held[reply - 1] != 0)
}

/* An access is answered by the entry of its page, or by the mapping, which then fills the array. */
inline access(h) {
    some_page(page); some_truth(truth);
    if
    :: array[h].at[page] == NONE -> array[h].at[page] = before[0].at[page]
    :: else
    fi;
    reply = REPLY(array[h].at[page], truth);
    printf("hart %d accesses page %d, store %d: reply %d\n", h, page, truth, reply);
    check_age(h, page, truth, reply);
    check_frame(reply)
}

/* An entry may leave the array at any time, whatever its width. */
inline evict(h) {
    some_page(page);
    printf("hart %d evicts page %d\n", h, page);
    array[h].at[page] = NONE
}

/* A map takes the lowest free frame. The claim: no hart's array reaches it. */
inline map(h) {
    some_page(page); some_truth(truth);
    lowest(frame);
    if
    :: before[0].at[page] == NONE && frame < FRAMES && !IS_FULL ->
        printf("hart %d maps page %d, writable %d: frame %d\n", h, page, truth, frame);
        assert(!REACHES(0, frame) && !REACHES(1, frame));
        remember();
        before[0].at[page] = LEAF(frame, truth);
        ask(h, page, NONE, false)
    :: else
    fi
}

/* An unmap holds its frame back until every hart has taken its request. */
inline unmap(h) {
    some_page(page);
    leaf = before[0].at[page];
    if
    :: leaf != NONE && !IS_FULL ->
        printf("hart %d unmaps page %d\n", h, page);
        remember();
        before[0].at[page] = NONE;
#ifndef FREES_AT_UNMAP
        held[FRAME(leaf)] = (1 << HARTS) - 1;
#endif
        ask(h, page, leaf, true)
    :: else
    fi
}

/* A protect gives a leaf this permission, which may be the one that it has. */
inline protect(h) {
    some_page(page); some_truth(truth);
    leaf = before[0].at[page];
    if
    :: leaf != NONE && !IS_FULL ->
        printf("hart %d protects page %d, writable %d\n", h, page, truth);
        remember();
        before[0].at[page] = LEAF(FRAME(leaf), truth);
        ask(h, page, leaf, false)
    :: else
    fi
}

/* A move takes a leaf to the other page. */
inline move(h) {
    some_page(page);
    leaf = before[0].at[page];
    if
    :: leaf != NONE && before[0].at[1 - page] == NONE && !IS_FULL ->
        printf("hart %d moves page %d\n", h, page);
        remember();
        before[0].at[page] = NONE;
        before[0].at[1 - page] = leaf;
        ask(h, page, leaf, false)
    :: else
    fi
}

/* A take removes the oldest request of the hart's queue, and the entry that equals its leaf before. */
inline take(h) {
    if
    :: len(queue[h]) > 0 ->
        queue[h]?page, leaf, truth;
#ifdef TAKES_NEWEST
        if
        :: len(queue[h]) > 0 ->
            old_page = page; old_leaf = leaf; old_truth = truth;
            queue[h]?page, leaf, truth;
            queue[h]!old_page, old_leaf, old_truth
        :: else
        fi;
#endif
        printf("hart %d takes the request of page %d\n", h, page);
#ifndef KEEPS_ENTRY
        if
        :: leaf != NONE && array[h].at[page] == leaf -> array[h].at[page] = NONE
        :: else
        fi;
#endif
        if
        :: truth -> held[FRAME(leaf)] = held[FRAME(leaf)] & ~(1 << h)
        :: else
        fi;
        forget()
    :: else
    fi
}

/* One event of one hart after another, in any order. What an event works with is put to 0 behind it, so that it
   makes no difference between states. */
proctype Hart(byte h) {
    byte page, leaf, frame, reply, i;
    bool truth, fits;
#ifdef TAKES_NEWEST
    byte old_page, old_leaf;
    bool old_truth;
#endif
    do
    :: atomic {
        if
        :: access(h)
        :: evict(h)
        :: map(h)
        :: unmap(h)
        :: protect(h)
        :: move(h)
        :: take(h)
        fi;
        page = 0; leaf = 0; frame = 0; reply = 0; i = 0; truth = false; fits = false
#ifdef TAKES_NEWEST
        ; old_page = 0; old_leaf = 0; old_truth = false
#endif
    }
    od
}

init {
    atomic { run Hart(0); run Hart(1) }
}
