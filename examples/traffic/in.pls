# By gos-play, from traffic.play.
cycles 2100
next 0 main.run
next 2 cars.done
next 38 beat.done
next 40 beat.done
next 40 beat.done
next 40 beat.done
next 40 beat.done
next 40 beat.done
next 9 somebody_waits.ans 0
next 31 beat.done
next 11 somebody_waits.ans 0
next 29 beat.done
next 11 somebody_waits.ans 0
next 29 beat.done
next 11 somebody_waits.ans 0
next 29 beat.done
next 11 somebody_waits.ans 0
next 29 beat.done
next 11 somebody_waits.ans 0
next 29 beat.done
next 11 somebody_waits.ans 0
next 29 beat.done
next 11 somebody_waits.ans 1
next 3 cars.done
next 26 beat.done
next 40 beat.done
next 14 cars.done
next 26 beat.done
next 13 walk.done
next 27 beat.done
next 40 beat.done
next 40 beat.done
next 40 beat.done
next 40 beat.done
next 14 walk.done
next 26 beat.done
next 40 beat.done
next 17 cars.done
next 23 beat.done
next 16 cars.done
next 24 beat.done
next 40 beat.done
next 40 beat.done
next 40 beat.done
next 40 beat.done
next 40 beat.done
next 9 somebody_waits.ans 0
next 31 beat.done
next 11 somebody_waits.ans 0
next 29 beat.done
next 11 somebody_waits.ans 0
next 29 beat.done
next 11 somebody_waits.ans 0
next 29 beat.done
next 11 somebody_waits.ans 0
next 29 beat.done
next 11 somebody_waits.ans 0
next 29 beat.done
next 11 somebody_waits.ans 0
next 29 beat.done
next 11 somebody_waits.ans 1
next 3 cars.done
next 26 beat.done
next 40 beat.done
next 14 cars.done
next 26 beat.done
next 13 walk.done
next 27 beat.done
next 40 beat.done
next 40 beat.done
next 40 beat.done
next 40 beat.done
next 14 walk.done
next 26 beat.done
next 40 beat.done
next 17 cars.done
next 23 beat.done
next 16 cars.done
next 24 beat.done
next 40 beat.done
next 40 beat.done
next 40 beat.done
