nomad 1
page 4
tiers 2 10
cpus 1
plan turns 10000
go c0 load 1
go m cleardirty 1
go c0 store 1
map 0 0 rw
cpu 0
load 0.0
store 0.0 7
load 0.0
