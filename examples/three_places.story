# The same events where each place has one message (RPS1): three places, and more signatures
group 00000000000000000000000000000000 plain
process 0 correct plain 100000
process 1 correct plain 100000
genesis 0 1
submit 0 "a"
submit 0 "b"
submit 0 "c"
drain 1000 to nobody
tick 0
drain 1000 to all
