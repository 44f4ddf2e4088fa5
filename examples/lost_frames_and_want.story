# Process 2 loses every frame; a tick makes it ask, and it delivers from the answers
group 00000000000000000000000000000000 plain
process 0 correct plain 100000
process 1 correct plain 100000
process 2 correct plain 100000
process 3 correct plain 100000
genesis 0 1 2 3
submit 0 "a"
pass 0 to 1
pass 0 to 1
pass 0 to 1
drain 1000 to 0 1 3
tick 2
drain 1000 to all
