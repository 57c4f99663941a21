nomad 1
page 4
tiers 4 12
cpus 1
plan turns 10000
go c0 load 4
go r bump 1
go c0 ack 1
go r putframe 1
go r releaseturn 1
go m bump 1
go c0 store 1
go c0 ack 1
map 0 0 rw
map 1 1 rw
map 2 2 rw
map 3 3 rw
cpu 0
load 0.0
load 1.0
load 2.0
load 3.0
store 2.0 7
load 2.0
load 3.0
