A G(E X press & E X !press)
& A G(press -> A F walk)
& A G(walk -> red)
& A G E F green
& A G !(green & red)
