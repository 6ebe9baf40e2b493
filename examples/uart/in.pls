# By gos-play, from uart.play.
cycles 1994
next 0 main.run
next 2 line.ans 1
next 3 line.ans 1
next 3 line.ans 1
next 3 line.ans 1
next 3 line.ans 1
next 3 line.ans 1
next 3 line.ans 1
next 3 line.ans 1
next 3 line.ans 1
next 3 line.ans 1
next 3 line.ans 1
next 3 line.ans 1
next 3 line.ans 1
next 3 line.ans 1
next 3 line.ans 1
next 3 line.ans 1
next 3 line.ans 1
next 3 line.ans 1
next 3 line.ans 1
next 3 line.ans 1
next 3 line.ans 1
next 3 line.ans 1
next 3 line.ans 1
next 3 line.ans 1
next 3 line.ans 1
next 3 line.ans 1
next 3 line.ans 1
next 3 line.ans 1
next 3 line.ans 1
next 3 line.ans 1
next 3 line.ans 1
next 3 line.ans 1
next 3 line.ans 1
next 3 line.ans 0
next 33 half_a_bit.done
next 64 bit.done
next 2 line.ans 1
next 62 bit.done
next 2 line.ans 1
next 62 bit.done
next 2 line.ans 1
next 62 bit.done
next 2 line.ans 0
next 62 bit.done
next 2 line.ans 0
next 62 bit.done
next 2 line.ans 1
next 62 bit.done
next 2 line.ans 1
next 62 bit.done
next 2 line.ans 0
next 62 bit.done
next 2 received.done
next 1 main.run
next 2 line.ans 1
next 3 line.ans 1
next 3 line.ans 1
next 3 line.ans 1
next 3 line.ans 1
next 3 line.ans 1
next 3 line.ans 1
next 3 line.ans 1
next 3 line.ans 1
next 3 line.ans 0
next 33 half_a_bit.done
next 64 bit.done
next 2 line.ans 1
next 62 bit.done
next 2 line.ans 1
next 62 bit.done
next 2 line.ans 1
next 62 bit.done
next 2 line.ans 1
next 62 bit.done
next 2 line.ans 0
next 62 bit.done
next 2 line.ans 1
next 62 bit.done
next 2 line.ans 1
next 62 bit.done
next 2 line.ans 0
next 62 bit.done
next 2 received.done
next 1 main.run
next 2 line.ans 1
next 3 line.ans 1
next 3 line.ans 1
next 3 line.ans 1
next 3 line.ans 1
next 3 line.ans 1
next 3 line.ans 1
next 3 line.ans 1
next 3 line.ans 0
next 33 half_a_bit.done
next 64 bit.done
next 2 line.ans 1
next 62 bit.done
next 2 line.ans 1
next 62 bit.done
next 2 line.ans 0
next 62 bit.done
next 2 line.ans 0
next 62 bit.done
next 2 line.ans 1
next 62 bit.done
next 2 line.ans 1
next 62 bit.done
next 2 line.ans 1
next 62 bit.done
next 2 line.ans 0
next 62 bit.done
next 2 received.done
