nomad 1
page 512
tiers 4 12
cpus 1
serial turns 8000000
map 0 0 rw
map 1 1 rw
map 2 2 rw
cpu 0
store 0.0 17
load 1.0
store 1.1 5
load 0.0
load 0.511
store 2.0 1
load 1.1
