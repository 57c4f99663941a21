nomad 1
page 4
tiers 2 12
cpus 2
plan turns 10000
go c0 load 1
go c1 load 1
go m bump 1
go c0 ack 1
go c1 ack 1
go m copystore 2
go c0 add 1
go m bump 1
go c1 ack 1
map 0 0 rw
cpu 0
load 0.0
add 0.0 5
load 0.0
cpu 1
load 0.0
add 0.0 7
load 0.0
