/* Two ways lead to one state, a long one that Spin tries first and a short one. A failure lies two steps
   past it: the model of bench/spin/short_way.guest. Searched with a depth that the short way and those two
   steps fit in, Spin reaches the state by the long way first, runs out of depth, and doesn't go on from it
   when it comes by the short way, since it knows the state. (With -DREACH it does, for more time.) */
byte x;

active proctype P() {
    if
    :: x = 1; x = 2; x = 3; x = 4; x = 9
    :: x = 9
    fi;
    x = 10;
    assert(x != 10)
}
