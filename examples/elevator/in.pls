# By gos-play, from elevator.play.
cycles 493
next 0 main.run
next 6 calls.ans 0
next 19 calls.ans 4
next 66 up.done
next 20 calls.ans 6
next 37 doors.done
next 2 calls.ans 4
next 66 up.done
next 20 calls.ans 5
next 37 doors.done
next 2 calls.ans 1
next 20 calls.ans 1
next 56 down.done
next 13 calls.ans 1
next 56 down.done
next 13 calls.ans 1
next 37 doors.done
next 2 calls.ans 0
