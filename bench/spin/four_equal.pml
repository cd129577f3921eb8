/* Four threads of five stores and adds: the model of bench/programs/four_equal.guest. */
short x, y, z;

active [4] proctype Thread() {
    short r, q;
    atomic { r = x; x = x + 1 }
    y = r;
    atomic { q = y; y = y + 2 }
    z = q;
    atomic { r = z; z = z + 1 }
}
