# A tree of 32 leaves (LMS) is spent after six messages
group 00000000000000000000000000000000 lms
process 0 correct lms 5 4 00000000000000000000000000000000 0000000000000000000000000000000000000000000000000000000000000000
genesis 0
submit 0 "a"
submit 0 "a"
submit 0 "a"
submit 0 "a"
submit 0 "a"
submit 0 "a"
submit 0 "a"
