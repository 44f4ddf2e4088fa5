# Three of four members submit at once, and all four deliver the three messages in one order
group 00000000000000000000000000000000 plain
process 0 correct plain 100000
process 1 correct plain 100000
process 2 correct plain 100000
process 3 correct plain 100000
genesis 0 1 2 3
submit 0 "a"
submit 1 "b"
submit 2 "c"
drain 1000 to all
