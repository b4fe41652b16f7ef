A G(E X p & E X !p)
