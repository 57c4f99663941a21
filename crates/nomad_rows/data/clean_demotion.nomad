nomad 1
page 4
tiers 2 10
cpus 1
plan turns 10000
go c0 load 1
go m bump 1
go c0 ack 1
go m bump 1
go c0 ack 1
go m unlock 1
go c0 load 1
go r bump 1
go c0 ack 1
go r releaseturn 1
map 0 0 rw
cpu 0
load 0.0
load 0.0
load 0.0
