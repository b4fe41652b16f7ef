(mu X. []X) & <>tt
