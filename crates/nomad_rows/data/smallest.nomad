nomad 1
page 4
tiers 4 8
cpus 1
serial turns 1000
map 0 0 rw
cpu 0
load 0.0
