(nu Z. ((p | <>q) -> q) & []Z) -> ((mu X. p | <>X) -> q)
