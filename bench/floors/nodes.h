/* The edits of a red-black tree over a table of links, written once for both tables that the models have: RB-INSERT-FIXUP and RB-DELETE-FIXUP, of which
 * each side has code of its own, and no word is written twice.
 *
 * Whoever includes it says what a word keeps, where a number is 8 * (place + 1), or 0 for none:
 *
 *   NODE(number)             the link of a place
 *   CHILD(word)              the number in the word of a child, and PARENT(word) that in the word of a parent
 *   IS_PLACE(number)         whether a number names a place of the table
 *   BROKEN(condition)        whether the words form no tree: a table whose words always form one need not look
 *   WITH_CHILD(word, number) the word of a left child with that number in it, in place of another one
 *   BELOW(number, color)     the third word of a linked place with that parent
 *
 * and what else is to be done, if the table keeps summaries: where HANGS(number, above) a place has got that parent, RISES(high, low) it has come up in the
 * place of another one, and LOSES(number) its children have changed, from the lowest place up. */

#define INLINE static inline __attribute__((always_inline))

enum { RED = 0, BLACK = 1 };

/* A repair makes no more turns, whatever the words say: no way down a tree is as long. */
enum { TURNS = 67 };

INLINE int is_red(const struct table *in, uint64_t number) {
    return IS_PLACE(number) && !(NODE(number)->parent & BLACK);
}

INLINE void set_child(struct link *link, int side, uint64_t number) {
    link->child[side] = side ? number : WITH_CHILD(link->child[0], number);
}

/* A place, if there is one, gets another parent and a color. */
INLINE void set_parent(const struct table *in, uint64_t number, uint64_t above, uint64_t color) {
    if (IS_PLACE(number)) {
        NODE(number)->parent = BELOW(above, color);
        HANGS(number, above);
    }
}

/* The same, and it keeps its color. */
INLINE void move_below(const struct table *in, uint64_t number, uint64_t above) {
    if (IS_PLACE(number))
        set_parent(in, number, above, NODE(number)->parent & BLACK);
}

/* The side of `above` on which a child hangs. */
INLINE int side_of(const struct table *in, uint64_t number, uint64_t above) {
    return CHILD(NODE(above)->child[0]) != number;
}

/* Below `above`, or as the root, another place hangs where one hung. */
INLINE void change_child(struct table *in, uint64_t above, uint64_t was, uint64_t number) {
    if (!IS_PLACE(above))
        in->root = number;
    else if (side_of(in, was, above))
        set_child(NODE(above), 1, number);
    else
        set_child(NODE(above), 0, number);
}

/* The place `low` goes down on this side below `high`, its child on the other one. Returns what hung between them, which hangs below `low` then. */
INLINE uint64_t pass_down(const struct table *in, uint64_t low, uint64_t high, int side, uint64_t color) {
    uint64_t between = CHILD(NODE(high)->child[side]);
    set_child(NODE(low), !side, between);
    set_child(NODE(high), side, low);
    NODE(low)->parent = BELOW(high, color);
    HANGS(low, high);
    return between;
}

/* The same, and `high` comes up in the place of `low`, with its parent and color. */
INLINE uint64_t rotate(struct table *in, uint64_t low, uint64_t high, int side, uint64_t color) {
    uint64_t word = NODE(low)->parent, above = PARENT(word), between = pass_down(in, low, high, side, color);
    NODE(high)->parent = word;
    HANGS(high, above);
    change_child(in, above, low, high);
    RISES(high, low);
    return between;
}

/* The red child `place` of a red `above` on this side of `grand`, whose other child is black: both come up. */
INLINE void raise_pair(struct table *in, uint64_t place, uint64_t above, uint64_t grand, int side) {
    if (CHILD(NODE(above)->child[!side]) == place) {
        set_parent(in, pass_down(in, above, place, side, RED), above, BLACK);
        LOSES(above);
        above = place;
    }
    set_parent(in, rotate(in, grand, above, !side, RED), grand, BLACK);
    LOSES(grand);
}

/* One turn of the repair above a red `place` and its red parent: the next red place, or 0 if it was the last turn. */
INLINE uint64_t fix_pair(struct table *in, uint64_t place, uint64_t above, uint64_t grand, int side) {
    uint64_t uncle = CHILD(NODE(grand)->child[!side]);
    if (!is_red(in, uncle)) {
        raise_pair(in, place, above, grand, side);
        return 0;
    }
    NODE(uncle)->parent |= BLACK;
    NODE(above)->parent |= BLACK;
    if (!IS_PLACE(PARENT(NODE(grand)->parent)))
        return 0;
    NODE(grand)->parent &= ~(uint64_t)BLACK;
    return grand;
}

/* Puts a place, whose link is written, below `above` on that side, and repairs the colors. */
INLINE void attach(struct table *in, uint64_t place, uint64_t above, int side) {
    if (side)
        set_child(NODE(above), 1, place);
    else
        set_child(NODE(above), 0, place);
    for (int turns = TURNS; !BROKEN(!turns); turns--) {
        uint64_t word = NODE(above)->parent, grand = PARENT(word);
        if (word & BLACK || BROKEN(!IS_PLACE(grand)))
            return;
        place = side_of(in, above, grand) ? fix_pair(in, place, above, grand, 1) : fix_pair(in, place, above, grand, 0);
        if (!place)
            return;
        above = PARENT(NODE(place)->parent);
    }
}

/* The sibling has a red child: it comes up, or that child does where it is the near one. */
INLINE void raise_sibling(struct table *in, uint64_t above, uint64_t sibling, uint64_t outer, int side) {
    if (is_red(in, outer)) {
        set_parent(in, outer, sibling, BLACK);
    } else {
        uint64_t near = CHILD(NODE(sibling)->child[side]);
        set_parent(in, pass_down(in, sibling, near, !side, BLACK), sibling, BLACK);
        LOSES(sibling);
        sibling = near;
    }
    move_below(in, rotate(in, above, sibling, side, BLACK), above);
    LOSES(above);
}

/* One turn of the repair of a tree that is one black member short on this side of `above`, and whether it was the last. */
INLINE int fix_short(struct table *in, uint64_t above, int side) {
    uint64_t sibling = CHILD(NODE(above)->child[!side]);
    if (is_red(in, sibling)) {
        sibling = rotate(in, above, sibling, side, RED);
        set_parent(in, sibling, above, BLACK);
        LOSES(above);
    }
    if (BROKEN(!IS_PLACE(sibling)))
        return 1;
    uint64_t outer = CHILD(NODE(sibling)->child[!side]);
    if (is_red(in, outer) || is_red(in, CHILD(NODE(sibling)->child[side]))) {
        raise_sibling(in, above, sibling, outer, side);
        return 1;
    }
    NODE(sibling)->parent &= ~(uint64_t)BLACK;
    if (NODE(above)->parent & BLACK)
        return 0;
    NODE(above)->parent |= BLACK;
    return 1;
}

/* Repairs the colors above a gap from which a black member has gone. */
INLINE void fix_gap(struct table *in, uint64_t above, int side) {
    for (int turns = TURNS; IS_PLACE(above) && !BROKEN(!turns); turns--) {
        if (side ? fix_short(in, above, 1) : fix_short(in, above, 0))
            return;
        uint64_t place = above;
        above = PARENT(NODE(place)->parent);
        side = IS_PLACE(above) && side_of(in, place, above);
    }
}

/* The child of a member that has gone is in its place: a lone child was red, and turns black. Without one the tree may be a black member short. */
INLINE void close_gap(struct table *in, uint64_t child, uint64_t above, int side, int color) {
    if (IS_PLACE(child))
        set_parent(in, child, above, BLACK);
    else if (color)
        fix_gap(in, above, side);
}

/* The next member, which is below the right child, comes up in the place of one with two children. */
INLINE void detach_inner(struct table *in, uint64_t place, uint64_t left, uint64_t right) {
    struct link *link = NODE(place);
    uint64_t next = right, above = place;
    for (int turns = TURNS; IS_PLACE(CHILD(NODE(next)->child[0])) && !BROKEN(!turns); turns--) {
        above = next;
        next = CHILD(NODE(next)->child[0]);
    }
    struct link *up = NODE(next);
    uint64_t child = CHILD(up->child[1]), word = link->parent;
    int color = up->parent & BLACK, side = above == place;
    if (side) {
        above = next;
    } else {
        set_child(NODE(above), 0, child);
        up->child[1] = right;
        move_below(in, right, next);
    }
    set_child(up, 0, left);
    move_below(in, left, next);
    up->parent = word;
    change_child(in, PARENT(word), place, next);
    close_gap(in, child, above, side, color);
}

/* Takes a member out of the tree, and leaves its own link as it is. */
INLINE void detach(struct table *in, uint64_t place) {
    struct link *link = NODE(place);
    uint64_t left = CHILD(link->child[0]), right = CHILD(link->child[1]), above = PARENT(link->parent);
    if (IS_PLACE(left) && IS_PLACE(right)) {
        detach_inner(in, place, left, right);
        return;
    }
    uint64_t child = IS_PLACE(left) ? left : right;
    int side = IS_PLACE(above) && side_of(in, place, above);
    change_child(in, above, place, child);
    close_gap(in, child, above, side, link->parent & BLACK);
}
