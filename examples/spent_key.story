# A key of four signatures is spent before its process can deliver (spent)
group 00000000000000000000000000000000 plain
process 0 correct plain 4
genesis 0
submit 0 "a"
