# The same with a message on its way: view 0 ends behind its first place, and the message is delivered in view 1
group 00000000000000000000000000000000 plain
process 0 correct plain 100000
process 1 correct plain 100000
process 2 correct plain 100000
process 3 correct plain 100000
genesis 0 1 2 3
submit 0 "a"
submit 1 "b"
drain 28 to all
renew 0
renew 1
drain 1000 to all
