/* How the threads of a line wait for one another, for the model checker spin. Rows are counted; what they hold is left to the proofs. The
   feeder, member 0, and the workers make a ring: member m puts rows on belt m and takes them from the belt before. A worker has a thread and
   so many stages, each of which keeps a row until its pass is whole. The feeder has a thread of its own if it is ALONE, and else it shares
   the first worker's. The members of a thread have their turns one after another. If none of them can do anything the thread announces that
   it parks, lets them try once more, and parks. Here a park lasts until the thread is woken, without the time-out that the program has: so
   spin finds a wake-up that can be lost, as an end in which a thread still waits. Steps of memory are in one order, as in the program. */
#ifndef WORKERS
#define WORKERS 2
#endif
#ifndef STAGES
#define STAGES 1
#endif
#ifndef ALONE
#define ALONE true
#endif
#ifndef ROWS
#define ROWS 3
#endif
#ifndef PASSES
#define PASSES 2
#endif
#ifndef PLACES
#define PLACES 2
#endif
#define MEMBERS (WORKERS + 1)
#define BEFORE(m) ((m + WORKERS) % MEMBERS)
#define BEHIND(m) ((m + 1) % MEMBERS)
#define THREAD(m) (m == 0 || ALONE -> m : m - 1)

/* The rows on belt m. */
byte rows[MEMBERS];
bool parking[MEMBERS], asleep[MEMBERS];

mtype = { idle, moved, over };

/* Wakes a thread that has announced that it parks. */
inline wake(who) {
    if
    :: parking[who] -> parking[who] = false; asleep[who] = false
    :: else
    fi
}

inline end_wait() {
    if
    :: announced -> parking[t] = false; announced = false
    :: else
    fi
}

/* Turns in which nothing could be done. */
inline wait() {
    if
    :: !announced -> parking[t] = true; announced = true
    :: else ->
        announced = false;
        if
        :: atomic { parking[t] -> asleep[t] = true }; !asleep[t]
        :: else
        fi
    fi
}

inline put() {
    sent[m]++;
    rows[m]++;
    turned = moved;
    end_wait();
    other = THREAD(BEHIND(m));
    wake(other)
}

inline take() {
    fed[m]++;
    rows[BEFORE(m)]--;
    turned = moved;
    end_wait();
    other = THREAD(BEFORE(m));
    wake(other)
}

/* A worker has sent as many rows less than it was fed as it has stages, until the pass is whole. */
#define OWES (fed[m] > sent[m] + STAGES || (fed[m] == ROWS && sent[m] < ROWS))

inline turn() {
    turned = idle;
    if
    :: m == 0 && fed[0] == PASSES * ROWS -> turned = over
    :: m == 0 && fed[0] < PASSES * ROWS ->
        if
        :: sent[0] < PASSES * ROWS && sent[0] < ROWS + fed[0] && rows[0] < PLACES -> put()
        :: else ->
            if
            :: fed[0] < sent[0] && rows[BEFORE(0)] > 0 -> take()
            :: else
            fi
        fi
    :: m > 0 && sent[m] == ROWS ->
        if
        :: pass[m] == PASSES - 1 -> turned = over
        :: else -> pass[m]++; fed[m] = 0; sent[m] = 0; turned = moved
        fi
    :: m > 0 && sent[m] < ROWS && OWES && rows[m] < PLACES -> put()
    :: m > 0 && sent[m] < ROWS && !OWES && rows[BEFORE(m)] > 0 -> take()
    :: else
    fi
}

proctype Thread(byte t; byte first; byte last) {
    byte pass[MEMBERS], fed[MEMBERS], sent[MEMBERS];
    byte m, other;
    bool announced, all_over, any_moved;
    mtype turned;
    do
    :: all_over -> break
    :: else ->
        all_over = true;
        any_moved = false;
        m = first;
        do
        :: m > last -> break
        :: else ->
            turn();
            all_over = all_over && turned == over;
            any_moved = any_moved || turned == moved;
            m++
        od;
        turned = idle;
        other = 0;
        if
        :: all_over || any_moved
        :: else -> wait()
        fi
    od
}

init {
    byte m;
    atomic {
        for (m : 1 .. WORKERS) {
            if
            :: !ALONE && m == 1 -> run Thread(0, 0, 1)
            :: else -> run Thread(THREAD(m), m, m)
            fi
        };
        if
        :: ALONE -> run Thread(0, 0, 0)
        :: else
        fi
    }
}
