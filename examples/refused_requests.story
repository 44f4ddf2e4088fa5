# What a process does not take in: updates that lead to no view, the addition of a process without a key,
# requests to one that is no member
group 00000000000000000000000000000000 plain
process 0 correct plain 100000
process 1 correct plain 100000
genesis 0
suspect 0 of 0
suspect 0 of 1
join 0 of 0
join 0 of 63
submit 1 "a"
renew 1
submit 0 "a"
