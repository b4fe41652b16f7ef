(p | q) & (!p | r) -> q | r
