# Two data bits of four cycles each.
cycles 1000
next 0 main.run
next 4 start_bit.done
next 0 more.ans 1
next 4 data_bit.done
next 0 more.ans 1
next 4 data_bit.done
next 0 more.ans 0
next 4 stop_bit.done
