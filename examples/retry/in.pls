cycles 1000
next 0 main.run
next 2 send.done
next 0 acked.ans 0
next 2 send.done
next 0 acked.ans 0
next 2 send.done
next 0 acked.ans 1
