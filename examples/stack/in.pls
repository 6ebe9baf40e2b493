# By gos-play, from stack.play.
cycles 247
next 0 main.run
next 8 wish.ans 1
next 8 given.ans 10
next 18 wish.ans 1
next 11 given.ans 20
next 18 wish.ans 1
next 11 given.ans 30
next 18 wish.ans 2
next 24 top.done
next 5 wish.ans 2
next 24 top.done
next 5 wish.ans 1
next 11 given.ans 40
next 18 wish.ans 2
next 24 top.done
next 5 wish.ans 2
next 24 top.done
next 5 wish.ans 0
