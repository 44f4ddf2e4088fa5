# The lie alone: 3 tells 61 to 0 and 1 and 62 to 2, and echoes both to all. Only 61 is certified, and 2 delivers
# it too
group 00000000000000000000000000000000 plain
process 0 correct plain 100000
process 1 correct plain 100000
process 2 correct plain 100000
process 3 corrupt plain 100000
genesis 0 1 2 3
lie 3 to 0 1: init 0 "a"
lie 3 to 2: init 0 "b"
lie 3 to 0 1 2: echo 3 0 "a"
lie 3 to 0 1 2: echo 3 0 "b"
drain 1000 to all
