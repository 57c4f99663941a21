nomad 1
page 4
tiers 4 8
cpus 1
serial turns 1000
map 0 0 rw
cpu 0
store 0.3 42
load 0.3
store 0.3 18446744073709551615
load 0.3
load 0.0
