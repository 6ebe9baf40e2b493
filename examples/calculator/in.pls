# By gos-play, from calculator.play.
cycles 1893
next 0 main.run
next 105 key.ans 49
next 68 display.done
next 102 key.ans 50
next 68 display.done
next 102 key.ans 43
next 33 display.done
next 105 key.ans 51
next 68 display.done
next 102 key.ans 48
next 68 display.done
next 102 key.ans 45
next 33 display.done
next 105 key.ans 53
next 68 display.done
next 102 key.ans 61
next 33 display.done
next 108 key.ans 55
next 68 display.done
next 102 key.ans 45
next 33 display.done
next 105 key.ans 50
next 68 display.done
next 102 key.ans 61
next 33 display.done
