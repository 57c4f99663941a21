nomad 2
page 4
node 0 2
node 128 2
node 256 10
cpus 1
serial turns 100000
map 0 0 rw
map 1 1 rw
map 2 2 rw
cpu 0
store 0.0 10
store 1.0 11
store 2.0 12
load 0.0
load 1.0
load 2.0
