/* A waiter looks at a flag without the lock, and sleeps after the wake-up: the model of
   examples/lost_wakeup.guest. `sleeping` is the condition's queue, which has one place here. */
byte ready, m, sleeping, woken;

inline lock(m) { atomic { m == 0 -> m = 1 } }
inline unlock(m) { m = 0 }

active proctype Waiter() {
    byte r;
    r = ready;
    if
    :: r == 0 ->
        lock(m);
        atomic { m = 0; sleeping = 1 }
        atomic { woken == 1 && m == 0 -> m = 1 }
        unlock(m)
    :: else
    fi
}

active proctype Setter() {
    ready = 1;
    lock(m);
    atomic { if :: sleeping -> sleeping = 0; woken = 1 :: else fi }
    unlock(m)
}
