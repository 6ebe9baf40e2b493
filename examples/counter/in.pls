# By gos-play, from counter.play.
cycles 82
next 0 main.run
next 14 step.ans 1
next 5 total.done
next 14 step.ans 4294967295
next 5 total.done
next 14 step.ans 18446744069414584320
next 5 total.done
next 14 step.ans 5
next 5 total.done
