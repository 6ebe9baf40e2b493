cycles 2000
next 0 main.run
next 0 size.ans 2
next 0 phase_a.done
next 0 phase_b.done
next 0 v.ans 10
next 0 v.done
next 0 phase_a.done
next 0 phase_b.done
next 0 v.ans 11
next 0 v.done
