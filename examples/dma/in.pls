# By gos-play, from dma.play.
cycles 452
next 0 main.run
next 6 first.ans 4
next 9 address.done
next 4 word.ans 16
next 9 address.done
next 5 word.ans 24
next 11 address.done
next 6 word.ans 3
next 12 address.done
next 8 word.ans 99
next 10 address.done
next 9 word.done
next 32 address.done
next 8 word.ans 111
next 10 address.done
next 9 word.done
next 32 address.done
next 8 word.ans 112
next 10 address.done
next 9 word.done
next 35 address.done
next 7 word.ans 8
next 15 address.done
next 4 word.ans 24
next 9 address.done
next 5 word.ans 30
next 11 address.done
next 6 word.ans 2
next 12 address.done
next 8 word.ans 99
next 10 address.done
next 9 word.done
next 32 address.done
next 8 word.ans 111
next 10 address.done
next 9 word.done
next 35 address.done
next 7 word.ans 0
