/* All orders of the moves by which the layout `plain` runs the first ISSUES instructions of a program of `addi x1, x1, 1` alone:
   the table of docs/SEMANTICS.md, as far as such a program needs it. SPIN counts its states as `cfpp orders plain PROGRAM
   --issues ISSUES` does:

       spin -a bench/orders.pml && cc -O2 -DSAFETY -DNOREDUCE -DNOFAIR -o pan pan.c && ./pan -m1000000

   A stage without an instruction or a result has zeros for what belongs to it, so that equal states are equal bytes. */

#ifndef ISSUES
#define ISSUES 4
#endif
#define STAGES 8
#define LANE 16

typedef Stage {
    bool occupied;      /* an instruction is here */
    bool known;         /* its source has a value */
    byte source;
    bool done;
    bool owes;          /* its result has not left it */
    byte value;         /* of its destination, where it is done */
    bool result;        /* a result is here */
    byte carried;       /* the result's value */
    bool met            /* both are here, and have met */
};

Stage stage[STAGES];    /* the lowest is 0 */
byte issued, requests, x1;

#define UNIT(i) (i == 1 || i == 3 || i == 5)
#define FREE(s) (!s.result || s.met)

inline issue() {
    stage[0].occupied = true;
    issued++;
    requests++
}

inline emit() {
    stage[STAGES - 1].result = true;
    stage[STAGES - 1].carried = x1;
    requests--
}

inline leave_stage(s) {
    s.occupied = false; s.known = false; s.source = 0; s.done = false; s.owes = false; s.value = 0; s.met = false
}

inline climb(low, high) {
    high.occupied = true; high.known = low.known; high.source = low.source; high.done = low.done; high.value = low.value;
    leave_stage(low)
}

inline leave_with_result(s) {
    s.result = false; s.carried = 0; s.met = false
}

inline fall(high, low) {
    low.result = true; low.carried = high.carried;
    leave_with_result(high)
}

/* A waiting instruction takes the value; then a known destination updates the result, and an unknown one ends it. */
inline meet(s) {
    if
    :: !s.known -> s.known = true; s.source = s.carried
    :: else
    fi;
    if
    :: s.done -> s.carried = s.value; s.met = true
    :: else -> s.result = false; s.carried = 0
    fi
}

inline execute(s) {
    s.done = true; s.owes = true; s.value = s.source + 1
}

inline send(s) {
    s.owes = false; s.result = true; s.carried = s.value; s.met = true
}

inline leave(s) {
    x1 = s.value;
    leave_stage(s)
}

#define MOVES_WITHIN(i) \
    :: d_step { stage[i].occupied && stage[i].result && !stage[i].met -> meet(stage[i]) } \
    :: d_step { stage[i].occupied && !stage[i].done && UNIT(i) && stage[i].known -> execute(stage[i]) } \
    :: d_step { stage[i].occupied && stage[i].owes && !stage[i].result -> send(stage[i]) }

#define MOVES_BETWEEN(i, j) \
    :: d_step { stage[i].occupied && FREE(stage[i]) && !stage[i].owes && (stage[i].done || i != 5) && !stage[j].occupied \
        -> climb(stage[i], stage[j]) } \
    :: d_step { stage[j].result && (!stage[j].occupied || stage[j].met) && !stage[i].result -> fall(stage[j], stage[i]) }

active proctype processor() {
    do
    :: d_step { issued < ISSUES && !stage[0].occupied && requests < LANE -> issue() }
    :: d_step { requests > 0 && !stage[STAGES - 1].result -> emit() }
    MOVES_BETWEEN(0, 1)
    MOVES_BETWEEN(1, 2)
    MOVES_BETWEEN(2, 3)
    MOVES_BETWEEN(3, 4)
    MOVES_BETWEEN(4, 5)
    MOVES_BETWEEN(5, 6)
    MOVES_BETWEEN(6, 7)
    MOVES_WITHIN(0)
    MOVES_WITHIN(1)
    MOVES_WITHIN(2)
    MOVES_WITHIN(3)
    MOVES_WITHIN(4)
    MOVES_WITHIN(5)
    MOVES_WITHIN(6)
    MOVES_WITHIN(7)
    :: d_step { stage[STAGES - 1].occupied && FREE(stage[STAGES - 1]) && !stage[STAGES - 1].owes && stage[STAGES - 1].done
        -> leave(stage[STAGES - 1]) }
    :: d_step { stage[0].result && (!stage[0].occupied || stage[0].met) -> leave_with_result(stage[0]) }
    od
}
