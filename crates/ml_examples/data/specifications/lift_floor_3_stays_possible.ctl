at1
& A G(at1 -> A X !at3)
& A G(at3 -> A X !at1)
& A G E F at3
& A G E F at1
& E G !at3
& A G(!(at1 & at2) & !(at2 & at3) & !(at1 & at3))
& A G(at1 | at2 | at3)
