# Nothing happens: the group of four as it begins
group 00000000000000000000000000000000 plain
process 0 correct plain 100000
process 1 correct plain 100000
process 2 correct plain 100000
process 3 correct plain 100000
genesis 0 1 2 3
