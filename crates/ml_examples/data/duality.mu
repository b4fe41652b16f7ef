!(mu X. p | <>X) <-> (nu X. !p & []X)
