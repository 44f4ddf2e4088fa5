# A member is removed, is refused as an outsider, is added again and delivers
group 00000000000000000000000000000000 plain
process 0 correct plain 100000
process 1 correct plain 100000
process 2 correct plain 100000
process 3 correct plain 100000
genesis 0 1 2 3
submit 1 "a"
drain 1000 to all
suspect 0 of 1
suspect 2 of 1
drain 1000 to all
submit 1 "b"
join 0 of 1
drain 1000 to all
tick 1
drain 1000 to all
submit 1 "c"
drain 1000 to all
