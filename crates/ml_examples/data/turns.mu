(nu X. !(c1 & c2) & []X) & (nu X. (mu Y. c1 | <>Y) & (mu Y. c2 | <>Y) & []X)
