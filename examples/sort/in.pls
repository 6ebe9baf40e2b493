# By gos-play, from sort.play.
cycles 1508
next 0 main.run
next 6 number.ans 31
next 11 number.ans 41
next 57 number.ans 5
next 173 number.ans 92
next 57 number.ans 65
next 123 number.ans 35
next 255 number.ans 89
next 123 number.ans 5
next 461 out.done
next 23 out.done
next 33 out.done
next 33 out.done
next 33 out.done
next 33 out.done
next 33 out.done
next 33 out.done
