(mu X. (p & q) | <>X) -> (mu X. p | <>X)
