# By gos-play, from spi.play.
cycles 1000
next 5 main.run
next 4 send.ans 103
next 4 select.done
next 4 to_device.done
next 12 half.done
next 2 clock.done
next 7 from_device.ans 0
next 15 half.done
next 2 clock.done
next 22 to_device.done
next 12 half.done
next 2 clock.done
next 7 from_device.ans 1
next 15 half.done
next 2 clock.done
next 22 to_device.done
next 12 half.done
next 2 clock.done
next 7 from_device.ans 1
next 15 half.done
next 2 clock.done
next 22 to_device.done
next 12 half.done
next 2 clock.done
next 7 from_device.ans 0
next 15 half.done
next 2 clock.done
next 22 to_device.done
next 12 half.done
next 2 clock.done
next 7 from_device.ans 1
next 15 half.done
next 2 clock.done
next 22 to_device.done
next 12 half.done
next 2 clock.done
next 7 from_device.ans 1
next 15 half.done
next 2 clock.done
next 22 to_device.done
next 12 half.done
next 2 clock.done
next 7 from_device.ans 1
next 15 half.done
next 2 clock.done
next 22 to_device.done
next 12 half.done
next 2 clock.done
next 7 from_device.ans 1
next 15 half.done
next 2 clock.done
next 21 select.done
next 2 received.done
next 6 main.run
next 4 send.ans 111
next 4 select.done
next 4 to_device.done
next 12 half.done
next 2 clock.done
next 7 from_device.ans 0
next 15 half.done
next 2 clock.done
next 22 to_device.done
next 12 half.done
next 2 clock.done
next 7 from_device.ans 1
next 15 half.done
next 2 clock.done
next 22 to_device.done
next 12 half.done
next 2 clock.done
next 7 from_device.ans 1
next 15 half.done
next 2 clock.done
next 22 to_device.done
next 12 half.done
next 2 clock.done
next 7 from_device.ans 0
next 15 half.done
next 2 clock.done
next 22 to_device.done
next 12 half.done
next 2 clock.done
next 7 from_device.ans 1
next 15 half.done
next 2 clock.done
next 22 to_device.done
next 12 half.done
next 2 clock.done
next 7 from_device.ans 0
next 15 half.done
next 2 clock.done
next 22 to_device.done
next 12 half.done
next 2 clock.done
next 7 from_device.ans 1
next 15 half.done
next 2 clock.done
next 22 to_device.done
next 12 half.done
next 2 clock.done
next 7 from_device.ans 1
next 15 half.done
next 2 clock.done
next 21 select.done
next 2 received.done
