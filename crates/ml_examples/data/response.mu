(nu X. (r -> (mu Y. a | (<>tt & []Y))) & []X) & r & []r & (nu X. !a & <>X)
