# Four members, of whom 3 lies: it tells one payload to 0 and 1 and another to 2. All deliver the same four
# messages in one order, and each keeps the lie as evidence (liar)
group 00000000000000000000000000000000 plain
process 0 correct plain 100000
process 1 correct plain 100000
process 2 correct plain 100000
process 3 corrupt plain 100000
genesis 0 1 2 3
submit 0 "a"
submit 1 "b"
submit 2 "c"
lie 3 to 0 1: init 0 "x"
lie 3 to 2: init 0 "y"
lie 3 to 0 1 2: echo 3 0 "x"
lie 3 to 0 1 2: echo 3 0 "y"
drain 1000 to all
