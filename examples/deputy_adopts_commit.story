# The manager lies and lets one member alone decide; the deputy that takes its place comes to the same view
group 00000000000000000000000000000000 plain
process 0 corrupt plain 100000
process 1 correct plain 100000
process 2 correct plain 100000
process 3 correct plain 100000
genesis 0 1 2 3
renew 1
renew 2
drain 1000 to all
lie 0 to 1 2 3: suggest 0 renew 0
drain 3 to all
drain 6 to 2 3
lie 0 to 2: ready 0 renew 0
drain 5 to 2
suspect 1 of 0
suspect 3 of 0
lie 0 to 1 3: last 1 none
lie 0 to 1 3: ack 1 renew 0
lie 0 to 1 3: ready 1 renew 0
drain 1000 to all
pass 7 to 1
pass 8 to 1
drain 1000 to all
