/* Three threads that draw tickets, twice each, and look up to three times for their turn: the model of
   bench/programs/ticket_lock.guest. */
byte next, serving, inside;

active [3] proctype Thread() {
    byte mine, now, others, drawn, looked;
    do
    :: drawn < 2 ->
        atomic { mine = next; next = next + 1; drawn = drawn + 1; looked = 0 }
        do
        :: looked < 3 ->
            atomic { now = serving; looked = looked + 1 }
            if
            :: now == mine ->
                atomic { others = inside; inside = inside + 1 }
                assert(others == 0);
                inside = inside - 1;
                serving = serving + 1;
                break
            :: else
            fi
        :: else -> break
        od
    :: else -> break
    od
}
