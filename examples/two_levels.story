# The same with a key of two levels of trees (HSS), which goes on
group 00000000000000000000000000000000 hss
process 0 correct hss 2 5 4 00000000000000000000000000000000 0000000000000000000000000000000000000000000000000000000000000000
genesis 0
submit 0 "a"
submit 0 "a"
submit 0 "a"
submit 0 "a"
submit 0 "a"
submit 0 "a"
submit 0 "a"
