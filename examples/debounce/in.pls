# By gos-play, from debounce.play.
cycles 1400
next 0 main.run
next 40 tick.done
next 1 button.ans 0
next 39 tick.done
next 1 button.ans 0
next 39 tick.done
next 1 button.ans 1
next 39 tick.done
next 1 button.ans 0
next 39 tick.done
next 1 button.ans 1
next 39 tick.done
next 1 button.ans 1
next 39 tick.done
next 1 button.ans 0
next 39 tick.done
next 1 button.ans 1
next 39 tick.done
next 1 button.ans 1
next 39 tick.done
next 1 button.ans 1
next 39 tick.done
next 1 button.ans 1
next 17 level.done
next 22 tick.done
next 1 button.ans 1
next 39 tick.done
next 1 button.ans 1
next 39 tick.done
next 1 button.ans 1
next 39 tick.done
next 1 button.ans 1
next 39 tick.done
next 1 button.ans 0
next 39 tick.done
next 1 button.ans 1
next 39 tick.done
next 1 button.ans 1
next 39 tick.done
next 1 button.ans 0
next 39 tick.done
next 1 button.ans 1
next 39 tick.done
next 1 button.ans 0
next 39 tick.done
next 1 button.ans 0
next 39 tick.done
next 1 button.ans 0
next 39 tick.done
next 1 button.ans 0
next 17 level.done
next 22 tick.done
next 1 button.ans 0
next 39 tick.done
next 1 button.ans 0
next 39 tick.done
next 1 button.ans 0
next 39 tick.done
next 1 button.ans 0
next 39 tick.done
next 1 button.ans 0
next 39 tick.done
next 1 button.ans 1
next 39 tick.done
next 1 button.ans 1
next 39 tick.done
next 1 button.ans 0
next 39 tick.done
next 1 button.ans 0
next 39 tick.done
next 1 button.ans 0
