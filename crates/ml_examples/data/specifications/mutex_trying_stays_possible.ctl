A G !(in1 & in2)
& A G(try1 -> A F in1)
& A G(try2 -> A F in2)
& A G E F try1
& A G E F try2
