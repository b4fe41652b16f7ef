(mu X. p | <>X) <-> (p | <>(mu X. p | <>X))
