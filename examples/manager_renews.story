# Two members ask for a next view with the same members, and the manager leads into it
group 00000000000000000000000000000000 plain
process 0 correct plain 100000
process 1 correct plain 100000
process 2 correct plain 100000
process 3 correct plain 100000
genesis 0 1 2 3
renew 0
renew 1
drain 1000 to all
