A G(near -> A F on)
& A G(on -> !up)
& A G(!near & !on -> E X near & E X !near)
& A G E F(up & !near)
