# Three members are ready for one end of the view, but their words get lost. The deputy lies: it tells of no
# ready and suggests another end. Nobody acknowledges that, and the view stays closing
group 00000000000000000000000000000000 plain
process 0 correct plain 100000
process 1 corrupt plain 100000
process 2 correct plain 100000
process 3 correct plain 100000
genesis 0 1 2 3
renew 0
renew 2
drain 16 to all
drain 6 to nobody
suspect 2 of 0
suspect 3 of 0
lie 1 to 0 2 3: last 1 none
lie 1 to 0 2 3: suggest 1 remove 0 0
drain 1000 to all
