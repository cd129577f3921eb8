/* Two transfers take two locks in opposite orders: the model of examples/lock_order.guest. */
byte left_lock, right_lock;
byte left = 50, right = 50;

inline lock(m) { atomic { m == 0 -> m = 1 } }
inline unlock(m) { m = 0 }

active proctype LeftToRight() {
    byte l, r;
    lock(left_lock); lock(right_lock);
    l = left; left = l - 10;
    r = right; right = r + 10;
    unlock(right_lock); unlock(left_lock)
}

active proctype RightToLeft() {
    byte l, r;
    lock(right_lock); lock(left_lock);
    r = right; right = r - 20;
    l = left; left = l + 20;
    unlock(left_lock); unlock(right_lock)
}
