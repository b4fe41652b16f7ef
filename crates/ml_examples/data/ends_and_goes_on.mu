(mu X. []X) & (nu X. <>X)
