# By gos-play, from i2c.play.
cycles 1937
next 20 main.run
next 3 data.done
next 12 half.done
next 2 clock.done
next 10 address.ans 64
next 8 data.done
next 14 half.done
next 4 clock.done
next 14 half.done
next 1 level.ans 0
next 6 clock.done
next 24 data.done
next 14 half.done
next 4 clock.done
next 14 half.done
next 1 level.ans 1
next 6 clock.done
next 24 data.done
next 14 half.done
next 4 clock.done
next 14 half.done
next 1 level.ans 0
next 6 clock.done
next 24 data.done
next 14 half.done
next 4 clock.done
next 14 half.done
next 1 level.ans 0
next 6 clock.done
next 24 data.done
next 14 half.done
next 4 clock.done
next 14 half.done
next 1 level.ans 0
next 6 clock.done
next 24 data.done
next 14 half.done
next 4 clock.done
next 14 half.done
next 1 level.ans 0
next 6 clock.done
next 24 data.done
next 14 half.done
next 4 clock.done
next 14 half.done
next 1 level.ans 0
next 6 clock.done
next 24 data.done
next 14 half.done
next 4 clock.done
next 14 half.done
next 1 level.ans 0
next 6 clock.done
next 24 data.done
next 14 half.done
next 4 clock.done
next 14 half.done
next 1 level.ans 0
next 6 clock.done
next 30 byte.ans 90
next 8 data.done
next 14 half.done
next 4 clock.done
next 14 half.done
next 1 level.ans 0
next 6 clock.done
next 24 data.done
next 14 half.done
next 4 clock.done
next 14 half.done
next 1 level.ans 1
next 6 clock.done
next 24 data.done
next 14 half.done
next 4 clock.done
next 14 half.done
next 1 level.ans 0
next 6 clock.done
next 24 data.done
next 14 half.done
next 4 clock.done
next 14 half.done
next 1 level.ans 1
next 6 clock.done
next 24 data.done
next 14 half.done
next 4 clock.done
next 14 half.done
next 1 level.ans 1
next 6 clock.done
next 24 data.done
next 14 half.done
next 4 clock.done
next 14 half.done
next 1 level.ans 0
next 6 clock.done
next 24 data.done
next 14 half.done
next 4 clock.done
next 14 half.done
next 1 level.ans 1
next 6 clock.done
next 24 data.done
next 14 half.done
next 4 clock.done
next 14 half.done
next 1 level.ans 0
next 6 clock.done
next 24 data.done
next 14 half.done
next 4 clock.done
next 14 half.done
next 1 level.ans 0
next 6 clock.done
next 26 data.done
next 14 half.done
next 3 clock.done
next 15 half.done
next 4 data.done
next 15 half.done
next 21 main.run
next 3 data.done
next 12 half.done
next 2 clock.done
next 10 address.ans 66
next 8 data.done
next 14 half.done
next 4 clock.done
next 14 half.done
next 1 level.ans 0
next 6 clock.done
next 24 data.done
next 14 half.done
next 4 clock.done
next 14 half.done
next 1 level.ans 1
next 6 clock.done
next 24 data.done
next 14 half.done
next 4 clock.done
next 14 half.done
next 1 level.ans 0
next 6 clock.done
next 24 data.done
next 14 half.done
next 4 clock.done
next 14 half.done
next 1 level.ans 0
next 6 clock.done
next 24 data.done
next 14 half.done
next 4 clock.done
next 14 half.done
next 1 level.ans 0
next 6 clock.done
next 24 data.done
next 14 half.done
next 4 clock.done
next 14 half.done
next 1 level.ans 0
next 6 clock.done
next 24 data.done
next 14 half.done
next 4 clock.done
next 14 half.done
next 1 level.ans 1
next 6 clock.done
next 24 data.done
next 14 half.done
next 4 clock.done
next 14 half.done
next 1 level.ans 0
next 6 clock.done
next 24 data.done
next 14 half.done
next 4 clock.done
next 14 half.done
next 1 level.ans 1
next 6 clock.done
next 22 refused.done
next 6 data.done
next 14 half.done
next 3 clock.done
next 15 half.done
next 4 data.done
next 15 half.done
