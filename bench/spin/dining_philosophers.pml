/* Three philosophers, each of whom takes the left fork first: the model of examples/dining_philosophers.guest. */
byte fork[3];

inline lock(m) { atomic { m == 0 -> m = 1 } }
inline unlock(m) { m = 0 }

proctype Philosopher(byte left, right) {
    lock(fork[left]); lock(fork[right]);
    unlock(fork[right]); unlock(fork[left])
}

init {
    atomic { run Philosopher(0, 1); run Philosopher(1, 2); run Philosopher(2, 0) }
}
