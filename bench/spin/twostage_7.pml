/* Seven threads that count in two stages, each under a lock: the model of
   bench/programs/twostage_7.guest. */
byte first, second, a, b;

inline lock(m) { atomic { m == 0 -> m = 1 } }
inline unlock(m) { m = 0 }

active [7] proctype Counter() {
    lock(a);
    first = first + 1;
    unlock(a);
    lock(b);
    second = second + 1;
    unlock(b)
}
