# No report: a Pass names a frame that was not sent, stop 7 frame 0 0 0
group 00000000000000000000000000000000 plain
process 0 correct plain 100000
process 1 correct plain 100000
process 2 correct plain 100000
process 3 correct plain 100000
genesis 0 1 2 3
pass 0 to 0
