# By gos-play, from table.play.
cycles 792
next 0 main.run
next 635 n.ans 0
next 2 square.done
next 35 n.ans 15
next 2 square.done
next 35 n.ans 7
next 2 square.done
next 35 n.ans 12
next 2 square.done
next 35 n.ans 1
next 2 square.done
