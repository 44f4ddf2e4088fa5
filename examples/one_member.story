# The smallest: a group of one, which delivers its own message; docs/FORMATS.md has it byte by byte
group 00000000000000000000000000000000 plain
process 0 correct plain 100000
genesis 0
submit 0 "hi"
