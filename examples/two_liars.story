# Two of four lie, which is more than a view of four bears: bounded no, and then agree no, as 0 and 1 deliver
# different payloads at one place
group 00000000000000000000000000000000 plain
process 0 correct plain 100000
process 1 correct plain 100000
process 2 corrupt plain 100000
process 3 corrupt plain 100000
genesis 0 1 2 3
lie 3 to 0: init 0 "a"
lie 3 to 1: init 0 "b"
lie 2 to 0: echo 3 0 "a"
lie 3 to 0: echo 3 0 "a"
lie 2 to 1: echo 3 0 "b"
lie 3 to 1: echo 3 0 "b"
lie 2 to 0 1: place 0 3 0
lie 2 to 0 1: keep 0 3 0
drain 1000 to all
