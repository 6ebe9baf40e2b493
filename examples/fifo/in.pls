# By gos-play, from fifo.play.
cycles 1600
next 0 main.run
next 7 is_there.ans 1
next 1 byte.ans 116
next 20 is_wanted.ans 0
next 12 tick.done
next 4 is_there.ans 1
next 1 byte.ans 119
next 20 is_wanted.ans 0
next 15 tick.done
next 4 is_there.ans 1
next 1 byte.ans 101
next 20 is_wanted.ans 0
next 15 tick.done
next 4 is_there.ans 1
next 1 byte.ans 108
next 20 is_wanted.ans 0
next 15 tick.done
next 4 is_there.ans 1
next 1 byte.ans 118
next 20 is_wanted.ans 0
next 15 tick.done
next 4 is_there.ans 1
next 1 byte.ans 101
next 20 is_wanted.ans 0
next 15 tick.done
next 4 is_there.ans 1
next 1 byte.ans 32
next 20 is_wanted.ans 0
next 15 tick.done
next 4 is_there.ans 1
next 1 byte.ans 98
next 20 is_wanted.ans 0
next 15 tick.done
next 6 is_wanted.ans 0
next 34 tick.done
next 6 is_wanted.ans 0
next 34 tick.done
next 6 is_wanted.ans 0
next 34 tick.done
next 6 is_wanted.ans 0
next 34 tick.done
next 6 is_wanted.ans 0
next 34 tick.done
next 6 is_wanted.ans 0
next 34 tick.done
next 6 is_wanted.ans 0
next 34 tick.done
next 6 is_wanted.ans 1
next 6 out.done
next 28 tick.done
next 4 is_there.ans 1
next 1 byte.ans 121
next 20 is_wanted.ans 1
next 6 out.done
next 49 tick.done
next 4 is_there.ans 1
next 1 byte.ans 116
next 20 is_wanted.ans 1
next 6 out.done
next 49 tick.done
next 4 is_there.ans 1
next 1 byte.ans 101
next 20 is_wanted.ans 1
next 6 out.done
next 49 tick.done
next 4 is_there.ans 1
next 1 byte.ans 115
next 20 is_wanted.ans 1
next 6 out.done
next 49 tick.done
next 4 is_there.ans 0
next 3 is_wanted.ans 1
next 6 out.done
next 27 tick.done
next 4 is_there.ans 0
next 3 is_wanted.ans 1
next 6 out.done
next 27 tick.done
next 4 is_there.ans 0
next 3 is_wanted.ans 1
next 6 out.done
next 27 tick.done
next 4 is_there.ans 0
next 3 is_wanted.ans 1
next 6 out.done
next 27 tick.done
next 4 is_there.ans 0
next 3 is_wanted.ans 1
next 6 out.done
next 27 tick.done
next 4 is_there.ans 0
next 3 is_wanted.ans 1
next 6 out.done
next 27 tick.done
next 4 is_there.ans 0
next 3 is_wanted.ans 1
next 6 out.done
next 27 tick.done
next 4 is_there.ans 0
next 36 tick.done
next 4 is_there.ans 0
next 36 tick.done
next 4 is_there.ans 0
next 36 tick.done
next 4 is_there.ans 0
next 36 tick.done
next 4 is_there.ans 0
next 36 tick.done
next 4 is_there.ans 0
next 36 tick.done
next 4 is_there.ans 0
next 36 tick.done
next 4 is_there.ans 0
next 36 tick.done
next 4 is_there.ans 0
