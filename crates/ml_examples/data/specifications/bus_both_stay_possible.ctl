own1
& A G(E X ready & E X !ready)
& A G E F own1
& A G E F own2
& A G(!ready & own1 -> A X own1)
& A G(!ready & own2 -> A X own2)
& A G !(own1 & own2)
& A G(own1 | own2)
